//! Times the proved library and the Rust's text on the same streams, and prints tables in the form of
//! docs/SPEED.md. Usage: `bench [ROUNDS [JOB]]`, where JOB is how the names of the jobs wanted begin, or
//! `bench --quick`, a short run that holds each ratio to a loose limit.

mod jobs;
mod out;
mod series;
mod short;
mod sides;
mod table;

use jobs::{Job, Lists};
use oracle::builds::AT_HAND;
use oracle::paper::models::ErrorBound::{self, Absolute, Lossless, Relative};
use oracle::rust::Calls;
use out::{put, say};
use sides::{Again, MOST_VALUES, Ours, Side};
use std::process::ExitCode;

const USAGE: &str = "usage: bench [ROUNDS [JOB]], a whole number above 0 and how a job's name begins (written, read, \
    summed, reopened, rescued, tabled, range); or bench --quick";

const BOUNDS: [(&str, ErrorBound); 3] = [
    ("lossless", Lossless),
    ("absolute 0.1", Absolute(0.1)),
    ("relative 1 %", Relative(1.0)),
];

/// Each job with the goals of its rows: at most this part of the Rust with document 01's bodies.
const JOBS: [(&str, Job, [f64; 3]); 3] = [
    ("written", Job::Written, [0.20, 0.20, 0.40]),
    ("read", Job::Read, [0.10, 0.25, 0.45]),
    ("summed", Job::Summed, [0.15, 0.35, 0.65]),
];

/// How a writer comes back: reopened at the end of its stream, and rescued from what arrived, which is all of it.
const AGAIN: [(&str, Again); 2] = [("reopened", sides::reopened), ("rescued", sides::rescued)];

/// The names of the jobs that long streams are timed on.
fn jobs() -> impl Iterator<Item = &'static str> {
    let again = AGAIN.iter().map(|job| job.0);
    JOBS.iter().map(|job| job.0).chain(again)
}

/// At most this part of the text as published, in every row.
const PUBLISHED_GOAL: f64 = 0.70;

/// A value of a stream of 65,536 takes at most so many times as long as one of a stream of 1,000.
const LONG_GOAL: f64 = 1.20;

/// A quick run fails where a ratio is above so many times its goal.
const LOOSE: f64 = 2.5;

fn main() -> ExitCode {
    let words: Vec<String> = std::env::args().skip(1).collect();
    let Some(bench) = Bench::asked(&words) else {
        out::complain(format_args!("{USAGE}"));
        return ExitCode::from(2);
    };
    if bench.run() {
        ExitCode::SUCCESS
    } else {
        ExitCode::FAILURE
    }
}

/// What is asked for: the rounds, the jobs by how their names begin, how many streams of 1,000 values,
/// and the limit of a ratio as a multiple of its goal.
struct Bench {
    rounds: u32,
    wanted: String,
    streams: usize,
    limit: f64,
}

impl Bench {
    fn asked(words: &[String]) -> Option<Self> {
        if let [word] = words
            && word == "--quick"
        {
            return Some(Self {
                rounds: 5,
                wanted: String::new(),
                streams: 1_000,
                limit: LOOSE,
            });
        }
        let number = words.first().map_or(Some(5), |word| word.parse().ok());
        let wanted = words.get(1).cloned().unwrap_or_default();
        let mut names = jobs().chain(["tabled", "range"]);
        let is_job = names.any(|name| name.starts_with(&wanted));
        Some(Self {
            rounds: number.filter(|&rounds| rounds > 0 && words.len() <= 2 && is_job)?,
            wanted,
            streams: 10_000,
            limit: f64::INFINITY,
        })
    }

    /// All tables. Whether the sides agree, and every ratio keeps the limit.
    fn run(&self) -> bool {
        if AT_HAND.is_empty() {
            say!("only ours is timed, since ORACLE_SRC names no folder with the Rust's text\n");
        }
        let rooms = series::rooms(self.streams, 1_000);
        let nights = series::rooms(self.streams / 66, MOST_VALUES);
        let sides = self.beside_the_rust(&rooms);
        let long = self.long_streams(&rooms, &nights);
        let tables = self.tabled(&rooms, &nights) & self.ranges(&nights);
        self.short_calls(&rooms[..500]);
        sides && long && tables
    }

    fn is_wanted(&self, job: &str) -> bool {
        job.starts_with(&self.wanted)
    }

    /// The jobs beside both builds of the Rust.
    fn beside_the_rust(&self, rooms: &[Vec<f32>]) -> bool {
        if !JOBS.iter().any(|job| self.is_wanted(job.0)) {
            return true;
        }
        say!("Nanoseconds a value, streams of 1,000 values, and ours as a part of the Rust's\n");
        head(
            "| job | bound | ours |",
            " filled | ratio | goal | published | ratio | goal |",
        );
        let lists = BOUNDS.map(|(name, bound)| (name, Lists::new(rooms, bound)));
        let mut good = true;
        for (job, kind, goals) in JOBS {
            for ((bound, lists), goal) in lists.iter().zip(goals) {
                if self.is_wanted(job) {
                    good &= self.row(job, bound, kind, goal, lists);
                }
            }
        }
        say!();
        good
    }

    /// A job by all sides. They must make the same of it, but for the lossy streams of the text as
    /// published, which keeps other values (docs/DIFFERENCES.md): such a row is not timed. `filled` may keep another
    /// value too, but only where document 01's first rules do, and is timed.
    fn row(&self, name: &str, bound: &str, job: Job, goal: f64, lists: &Lists) -> bool {
        let mut good = true;
        let mut builds: Vec<&Calls> = vec![];
        for calls in AT_HAND {
            if lists.agree_with(calls, job) {
                builds.push(calls);
            } else if calls.is_filled() || job != Job::Written || lists.bound == Lossless {
                say!("{name}, {bound}: ours and {} differ", calls.name);
                good = false;
            }
        }
        let mut sides: Vec<&dyn Side> = vec![&Ours];
        sides.extend(builds.iter().map(|calls| &calls.direct as &dyn Side));
        let goals = builds.iter().map(|calls| match calls.is_filled() {
            true => goal,
            false => PUBLISHED_GOAL,
        });
        let goals: Vec<f64> = goals.collect();
        let times = self.until(
            || lists.times(&sides, job, self.rounds),
            |times| {
                times[1..]
                    .iter()
                    .zip(&goals)
                    .all(|(time, goal)| self.keeps(times[0] / time, *goal))
            },
        );
        let ours = times[0];
        put!("| {name} | {bound} | {ours:.2} |");
        for (time, goal) in times[1..].iter().zip(goals) {
            good &= self.ratio(ours, *time, goal);
        }
        say!();
        good
    }

    /// Whether a ratio keeps the limit.
    fn keeps(&self, ratio: f64, goal: f64) -> bool {
        ratio <= self.limit * goal
    }

    /// Times until the limit is kept, three times at most: a busy machine may disturb one.
    fn until<T>(&self, mut time: impl FnMut() -> T, kept: impl Fn(&T) -> bool) -> T {
        let mut times = time();
        for _ in 0..2 {
            if !kept(&times) {
                times = time();
            }
        }
        times
    }

    /// The end of a row: a time, and how many times as long another takes, held to its limit.
    fn ratio(&self, ours: f64, other: f64, goal: f64) -> bool {
        let ratio = ours / other;
        let good = self.keeps(ratio, goal);
        let mark = if good { "" } else { " is above the limit" };
        put!(" {other:.2} | {ratio:.2}{mark} | {goal:.2} |");
        good
    }

    /// The jobs and how a writer comes back, a value of the longest streams beside one of short ones.
    fn long_streams(&self, rooms: &[Vec<f32>], nights: &[Vec<f32>]) -> bool {
        if !jobs().any(|name| self.is_wanted(name)) {
            return true;
        }
        say!("Nanoseconds a value, streams of 65,536 values beside those of 1,000\n");
        head("| job | bound | 65,536 | 1,000 | ratio | goal |", "");
        let mut pairs = BOUNDS.map(|(name, bound)| {
            let pair = [nights, rooms].map(|rooms| Lists::new(rooms, bound));
            (name, pair)
        });
        let mut good = true;
        for (job, kind, _) in JOBS {
            for (bound, [long, short]) in &pairs {
                if self.is_wanted(job) {
                    good &= self.agree_when_long(job, bound, kind, long);
                    let time = |lists: &Lists| lists.times(&[&Ours], kind, self.rounds)[0];
                    let (long, short) = self.until(
                        || in_turns(|| time(long), || time(short)),
                        |(long, short)| self.keeps(long / short, LONG_GOAL),
                    );
                    good &= self.long_row(job, bound, long, short);
                }
            }
        }
        for (job, again) in AGAIN {
            for (bound, [long, short]) in &mut pairs {
                if self.is_wanted(job) {
                    good &= self.come_again(job, again, bound, [long, short]);
                }
            }
        }
        say!();
        good
    }

    /// A writer that comes back, which is the one that wrote the stream.
    fn come_again(&self, job: &str, again: Again, bound: &str, lists: [&mut Lists; 2]) -> bool {
        let [long, short] = lists;
        let same = long.comes_again(again) && short.comes_again(again);
        if !same {
            say!("{job}, {bound}: another writer than the one that wrote");
        }
        let mut time = || {
            in_turns(
                || long.coming_again(again, self.rounds),
                || short.coming_again(again, self.rounds),
            )
        };
        let (long, short) = self.until(&mut time, |(long, short)| {
            self.keeps(long / short, LONG_GOAL)
        });
        self.long_row(job, bound, long, short) && same
    }

    fn long_row(&self, name: &str, bound: &str, long: f64, short: f64) -> bool {
        put!("| {name} | {bound} | {long:.2} |");
        let good = self.ratio(long, short, LONG_GOAL);
        say!();
        good
    }

    fn agree_when_long(&self, name: &str, bound: &str, job: Job, lists: &Lists) -> bool {
        let mut filled = AT_HAND.iter().filter(|calls| calls.is_filled());
        let good = filled.all(|calls| lists.agree_with(calls, job));
        if !good {
            say!("{name}, {bound}, 65,536 values: ours and filled differ");
        }
        good
    }

    /// What the call itself costs.
    fn short_calls(&self, rooms: &[Vec<f32>]) {
        if !["written", "read"].iter().any(|job| self.is_wanted(job)) {
            return;
        }
        say!("Nanoseconds a call, short calls through the Rust face\n");
        head("| call | bound | ours |", " filled | published |");
        if self.is_wanted("written") {
            for (bound, error_bound) in BOUNDS {
                let ours = short::one_value_written(rooms, error_bound, self.rounds);
                let others = AT_HAND.iter().map(|_| " – |").collect::<String>();
                say!("| one value written to a state | {bound} | {ours:.0} |{others}");
            }
        }
        if self.is_wanted("read") {
            for (bound, error_bound) in BOUNDS {
                put!("| a stream of {} read | {bound} |", short::SHORT);
                let builds = AT_HAND.iter().map(|calls| &calls.direct as &dyn Side);
                for side in std::iter::once(&Ours as &dyn Side).chain(builds) {
                    let time = short::short_stream_read(side, rooms, error_bound, self.rounds);
                    put!(" {time:.0} |");
                }
                say!();
            }
        }
    }
}

/// The better of two times of each, taken in turns: a slow moment of the machine then seldom meets one
/// of them alone.
fn in_turns(mut long: impl FnMut() -> f64, mut short: impl FnMut() -> f64) -> (f64, f64) {
    let (first, second) = ((long(), short()), (long(), short()));
    (first.0.min(second.0), first.1.min(second.1))
}

/// A table's head and the line under it, with the columns of the Rust's text where that is at hand.
fn head(row: &str, of_the_text: &str) {
    let row = match AT_HAND {
        [] => row.to_string(),
        _ => format!("{row}{of_the_text}"),
    };
    say!("{row}");
    say!("{}|", "|---".repeat(row.matches('|').count() - 1));
}
