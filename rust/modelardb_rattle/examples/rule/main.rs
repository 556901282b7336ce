//! The rule that chooses the model of a segment, shown by the proved library. Usage:
//! `rule FILE BOUND M`: reading by reading, what each model does and which one is chosen, for a file
//! with a time and a value on each line, a bound (`lossless`, `0.5`, `5%`) and a metadata size.
//! `rule`: the table of docs/THE-RULE.md.

#[path = "../shared/readings.rs"]
mod readings;
#[path = "../shared/size.rs"]
mod size;
mod steps;
mod table;
#[path = "../shared/told.rs"]
mod told;

use std::process::ExitCode;

fn main() -> ExitCode {
    let words: Vec<String> = std::env::args().skip(1).collect();
    told::told(match words.as_slice() {
        [] => table::table().map_err(|refusal| refusal.to_string()),
        [file, bound, m] => shown(file, bound, m),
        _ => Err("usage: rule, or rule FILE BOUND M: a bound as lossless, 0.5 or 5%, and the bytes of metadata of a segment".to_string()),
    })
}

fn shown(file: &str, bound: &str, m: &str) -> Result<String, String> {
    let readings = readings::of_file(file)?;
    let m = size::size(m)?;
    let error_bound = readings::bound(bound)?;
    steps::steps(&readings, error_bound, m).map_err(|refusal| refusal.to_string())
}
