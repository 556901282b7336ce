//! Answers as the list says them.

use super::table::FAULTS;
use crate::face::placed;
use modelardb_rattle::Refusal;
use oracle::faults::caught;
use oracle::paper::{Fault, Read};
use oracle::rust::Calls;

/// What a build of the text says, or that it faults.
type There = Box<dyn Fn(&Calls) -> Option<String>>;

/// A row as it is run: its input, and what the paper, the library and a build of the Rust's text say to it.
pub struct Row {
    pub input: &'static str,
    pub paper: String,
    pub library: String,
    there: There,
}

impl Row {
    /// What a build of the text says.
    pub fn there(&self, rust: &Calls) -> String {
        let answer = caught(|| (self.there)(rust)).flatten();
        answer.unwrap_or_else(|| FAULTS.to_string())
    }
}

/// A row of which all sides answer an `A`, and how that is said. `None` is a fault.
pub fn row<A: 'static>(
    input: &'static str,
    (paper, library): (Result<A, impl Into<Fault>>, Result<A, Refusal>),
    there: impl Fn(&Calls) -> Option<A> + 'static,
    say: impl Fn(A) -> String + 'static,
) -> Row {
    let (paper, library) = (paper.map_err(Into::into), placed(library));
    let refused = paper.as_ref().err().copied();
    // The list tells a refusal by its number. Where the library's value or place is another, all is said.
    let said = |answer: Read<A>| match answer {
        Ok(answer) => say(answer),
        Err(fault) if Some(fault) == refused => format!("refused, {}", fault.number),
        Err(fault) => format!("{fault:?}"),
    };
    let (paper, library) = (said(paper), said(library));
    Row {
        input,
        paper,
        library,
        there: Box::new(move |rust| there(rust).map(&say)),
    }
}

/// A value in decimals, a NaN by its pattern.
pub fn decimal(bits: u32) -> String {
    let value = f32::from_bits(bits);
    if value.is_nan() {
        pattern(bits)
    } else {
        format!("{value}")
    }
}

pub fn pattern(bits: u32) -> String {
    format!("{bits:08X}")
}

/// Few values one by one, many by their number.
pub fn values(values: Vec<u32>) -> String {
    match values.len() {
        0 => "no values".to_string(),
        count if count > 8 => format!("{count} values"),
        _ => joined(values.into_iter().map(decimal)),
    }
}

/// Few bytes one by one, many by their number.
pub fn bytes(bytes: Vec<u8>) -> String {
    match bytes.len() {
        0 => "no bytes".to_string(),
        count if count > 8 => format!("{count} bytes"),
        _ => {
            let digits: Vec<String> = bytes.iter().map(|byte| format!("{byte:02X}")).collect();
            digits.join(" ")
        }
    }
}

pub fn joined(words: impl Iterator<Item = String>) -> String {
    words.collect::<Vec<String>>().join(", ")
}

/// A line's ends.
pub fn ends((first, last): (u32, u32)) -> String {
    format!("{} to {}", decimal(first), decimal(last))
}

pub fn fits(fits: bool) -> String {
    if fits { "fits" } else { "does not fit" }.to_string()
}
