//! Where two uploads part, in plain numbers: what `compare` lists by bits. Usage: `parted LEFT RIGHT`, two files
//! as `compare` reads them, of streams of any allowed size. It ends with 0 whether or not they differ.

#[path = "../shared/told.rs"]
mod told;

use modelardb_rattle::compare::{Difference, differences_of_files};
use std::process::ExitCode;

fn main() -> ExitCode {
    let words: Vec<String> = std::env::args().skip(1).collect();
    told::told(match words.as_slice() {
        [left, right] => shown(left, right),
        _ => Err("usage: parted LEFT RIGHT".to_string()),
    })
}

fn shown(left: &str, right: &str) -> Result<String, String> {
    let read = |file: &str| std::fs::read(file).map_err(|why| format!("{file}: {why}"));
    let files = [read(left)?, read(right)?];
    let [left, right] = files.each_ref().map(Vec::as_slice);
    let found = differences_of_files(left, right).map_err(|refused| refused.to_string())?;
    let (_, values) = found.size_hint();
    let lines: Vec<String> = found.map(line).collect();
    let (count, values) = (lines.len(), values.unwrap_or_default());
    Ok(lines.concat() + &format!("{count} of {values} differ\n"))
}

fn line(difference: Difference) -> String {
    let (left, right) = (told(difference.left), told(difference.right));
    format!("value {}: left {left}, right {right}\n", difference.index)
}

/// A value by its number, a NaN with its bits.
fn told(bits: Option<u32>) -> String {
    match bits.map(|bits| (bits, f32::from_bits(bits))) {
        Some((bits, value)) if value.is_nan() => format!("NaN ({bits:08X})"),
        Some((_, value)) => value.to_string(),
        None => "nothing".to_string(),
    }
}
