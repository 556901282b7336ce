//! The outcomes as a table.

use crate::damage::{NEAR, Outcomes, written};
use modelardb_rattle::{ErrorBound, Refusal};
use std::fmt::Write;

const HEAD: &str = "\
bound    bytes  altered      streams  same values  other values  refused: 5     6     7     8  told: there   near  later
";

/// Two lines for each bound.
pub fn show(values: &[f32], bounds: &[(&str, ErrorBound)]) -> Result<String, Refusal> {
    let mut text = HEAD.to_string();
    for &(name, error_bound) in bounds {
        let stream = written(values, error_bound)?;
        let size = stream.bytes.len();
        let (flipped, cut) = (stream.flipped(), stream.cut());
        text += &line(name, size, "bit flipped", &flipped);
        text += &line(name, size, "cut short", &cut);
    }
    _ = writeln!(
        text,
        "bit flipped: each bit in turn; cut short: to each length below its own\n\
         told: at the value that was altered or is the first to be missing, up to {NEAR} values behind it, later"
    );
    Ok(text)
}

fn line(name: &str, size: usize, altered: &str, outcomes: &Outcomes) -> String {
    let (total, same, other) = (outcomes.total(), outcomes.same, outcomes.other);
    let mut text =
        format!("{name:8} {size:5}  {altered:11}  {total:7}  {same:11}  {other:12}      ");
    for count in outcomes.refused {
        _ = write!(text, " {count:5}");
    }
    let [there, near, later] = outcomes.told;
    text + &format!("        {there:5}  {near:5}  {later:5}\n")
}
