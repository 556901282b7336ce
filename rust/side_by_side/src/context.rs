//! What a part is given: the generator of inputs, the scale, the Rust's builds, and the counters.

use crate::inputs::Inputs;
use oracle::builds::AT_HAND;
use oracle::paper::rules;
use oracle::rust::Calls;
use std::fmt::Debug;
use std::process::ExitCode;
use std::time::Instant;

/// Most differing inputs that are printed for a part.
const MOST_SHOWN: u64 = 10;

/// A part of the comparison.
pub struct Part {
    name: &'static str,
    run: fn(&mut Context),
}

impl Part {
    pub const fn new(name: &'static str, run: fn(&mut Context)) -> Self {
        Self { name, run }
    }

    pub fn name(&self) -> &'static str {
        self.name
    }

    /// Whether its name begins so.
    pub fn is_named(&self, beginning: &str) -> bool {
        self.name.starts_with(beginning)
    }
}

/// The counts of a part, or of all.
#[derive(Default)]
struct Counts {
    compared: u64,
    explained: u64,
    /// Answers of the paper that are others by its first rules.
    parted: u64,
    unexplained: u64,
}

pub struct Context {
    pub inputs: Inputs,
    /// The Rust's text, as `filled` and as `published`, where it is at hand.
    pub rust: &'static [Calls],
    scale: u64,
    counts: Counts,
    /// What is to be printed: the first inputs that differ.
    lines: String,
}

/// What a part found, and its lines.
pub struct Outcome {
    counts: Counts,
    lines: String,
}

impl Context {
    fn new(inputs: Inputs, scale: u64) -> Self {
        Self {
            inputs,
            rust: AT_HAND,
            scale,
            counts: Counts::default(),
            lines: String::new(),
        }
    }

    /// So many rounds at scale 1.
    pub fn rounds(&self, at_scale_one: u64) -> u64 {
        at_scale_one * self.scale
    }

    /// How often the paper's rules parted so far.
    pub fn parted(&self) -> u64 {
        self.counts.parted
    }

    /// The paper's answer by its first rules, which the Rust's text follows; where it is not today's, the
    /// library's, they have parted.
    pub fn first<A: PartialEq>(&mut self, today: &A, ask: impl FnOnce() -> A) -> A {
        let first = rules::as_first(ask);
        self.counts.parted += u64::from(first != *today);
        first
    }

    /// Compares the paper's answer with another's; `input` writes the whole input if they differ.
    pub fn same<A: PartialEq + Debug>(
        &mut self,
        whose: &str,
        paper: A,
        other: A,
        input: impl FnOnce() -> String,
    ) {
        self.counts.compared += 1;
        if paper != other {
            let answers = format!("paper {paper:X?}, {whose} {other:X?}");
            self.differ(&answers, input());
        }
    }

    /// Compares as [`Context::same`], where a difference that the list explains is only counted.
    pub fn same_or<A: PartialEq + Debug>(
        &mut self,
        is_listed: bool,
        whose: &str,
        paper: A,
        other: A,
        input: impl FnOnce() -> String,
    ) {
        if is_listed && paper != other {
            self.counts.compared += 1;
            self.counts.explained += 1;
        } else {
            self.same(whose, paper, other, input);
        }
    }

    /// Runs a listed difference: both answers must be as the list says.
    pub fn listed<A: PartialEq + Debug>(
        &mut self,
        paper: A,
        theirs: A,
        listed: (A, A),
        what: &str,
    ) {
        self.counts.compared += 1;
        self.counts.explained += 1;
        let answers = (paper, theirs);
        if answers != listed {
            let answers = format!("paper and published {answers:X?}, by the list {listed:X?}");
            self.differ(&answers, what.to_string());
        }
    }

    fn differ(&mut self, answers: &str, input: String) {
        self.counts.unexplained += 1;
        if self.counts.unexplained <= MOST_SHOWN {
            self.lines += &format!("  differs: {input}: {answers}\n");
        }
    }
}

/// Runs a part. Its inputs hang on the seed and its name alone, so that it draws the same ones beside
/// other parts and by itself.
pub fn run(part: &Part, seed: u64, scale: u64) -> Outcome {
    let begin = Instant::now();
    let mut context = Context::new(Inputs::named(seed, part.name), scale);
    (part.run)(&mut context);
    let Context { counts, lines, .. } = context;
    let line = format!(
        "{}: compared {}, explained {}, parted {}, unexplained {}, {:.1} s",
        part.name,
        counts.compared,
        counts.explained,
        counts.parted,
        counts.unexplained,
        begin.elapsed().as_secs_f64()
    );
    let lines = lines + &line;
    Outcome { counts, lines }
}

/// Prints what the parts found, each as it comes, and the last line.
pub fn finish(outcomes: impl Iterator<Item = Outcome>) -> ExitCode {
    let mut total = Counts::default();
    for Outcome { counts, lines } in outcomes {
        println!("{lines}");
        total.compared += counts.compared;
        total.parted += counts.parted;
        total.unexplained += counts.unexplained;
    }
    println!(
        "parted {}: answers that document 01 gave otherwise before the requests of 02",
        total.parted
    );
    println!(
        "compared {}, unexplained {}",
        total.compared, total.unexplained
    );
    ExitCode::from(u8::from(total.unexplained != 0))
}
