//! The readings beside what is kept of them, and the upload that is cut and resumed.

use crate::stream::{likeness, resumed, written};
use crate::upload::{cut, means};
use modelardb_rattle::{ErrorBound, Opening, Refusal, macaque_v};
use std::fmt::Write;

pub fn show(times: &[String], values: &[f32], error_bound: ErrorBound) -> Result<String, Refusal> {
    let mut text = String::new();
    let whole = written(values, error_bound)?;
    let mut kept = vec![0.0; values.len()];
    macaque_v::grid(&whole.1, kept.len(), Opening::First, &mut kept)?;
    let means = means(values, error_bound)?;
    for (((time, value), kept), mean) in times.iter().zip(values).zip(&kept).zip(means) {
        _ = writeln!(
            text,
            "{time} {value:6.2}  kept as {kept:.2}, mean {mean:.2}"
        );
    }
    let half = values.len() / 2;
    let part = cut(values, half, error_bound)?;
    let again = resumed(part.clone(), &values[half..])?;
    _ = writeln!(text, "in one run        {}", hex(&whole.1));
    _ = writeln!(text, "cut behind {half}      {}", hex(&part.1));
    _ = writeln!(text, "resumed behind {half}  {}", hex(&again.1));
    let same = likeness(&again, &whole);
    _ = writeln!(
        text,
        "{} readings in {} bytes; cut and resumed, bytes and state, the sum among it, are {same} as of one run",
        values.len(),
        whole.1.len()
    );
    Ok(text)
}

fn hex(bytes: &[u8]) -> String {
    let bytes: Vec<String> = bytes.iter().map(|byte| format!("{byte:02X}")).collect();
    bytes.join(" ")
}
