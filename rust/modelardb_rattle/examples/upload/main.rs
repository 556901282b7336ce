//! Readings as a file that `compare` reads: a head of nine bytes, and a stream with its first value in full.
//! Usage: `upload FILE BOUND > UPLOAD`, a file with a time and a value on each line, and a bound
//! (`lossless`, `0.5`, `5%`).

#[path = "../shared/readings.rs"]
mod readings;
#[path = "../shared/told.rs"]
mod told;
mod written;

use std::process::ExitCode;

fn main() -> ExitCode {
    let words: Vec<String> = std::env::args().skip(1).collect();
    told::told(match words.as_slice() {
        [file, bound] => made(file, bound),
        _ => Err("usage: upload FILE BOUND > UPLOAD".to_string()),
    })
}

fn made(file: &str, bound: &str) -> Result<Vec<u8>, String> {
    let values = readings::of_file(file)?.values;
    let error_bound = readings::bound(bound)?;
    written::written(&values, error_bound).map_err(|refusal| refusal.to_string())
}
