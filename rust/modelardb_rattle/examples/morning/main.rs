//! A morning's readings as a stream: which value is kept for each, the bytes, and an upload that is cut
//! at a value and goes on. Usage: `morning FILE BOUND`, a file with a time and a value on each line, and
//! a bound (`lossless`, `0.5`, `5%`).

#[path = "../shared/readings.rs"]
mod readings;
mod show;
#[path = "../shared/stream.rs"]
mod stream;
#[path = "../shared/told.rs"]
mod told;
mod upload;

use std::process::ExitCode;

fn main() -> ExitCode {
    let words: Vec<String> = std::env::args().skip(1).collect();
    told::told(match words.as_slice() {
        [file, bound] => shown(file, bound),
        _ => Err("usage: morning FILE BOUND".to_string()),
    })
}

fn shown(file: &str, bound: &str) -> Result<String, String> {
    let readings = readings::of_file(file)?;
    let error_bound = readings::bound(bound)?;
    let shown = show::show(&readings.names, &readings.values, error_bound);
    shown.map_err(|refusal| refusal.to_string())
}
