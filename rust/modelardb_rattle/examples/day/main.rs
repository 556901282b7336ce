//! A day's readings as segments: what is stored, where and why, and what that saves. Usage:
//! `day FILE BOUND M`, a file with a time and a value on each line, a bound (`lossless`, `0.5`, `5%`)
//! and the bytes that each segment takes besides its values.

#[path = "../shared/readings.rs"]
mod readings;
mod show;
#[path = "../shared/size.rs"]
mod size;
mod store;
#[path = "../shared/told.rs"]
mod told;

use std::process::ExitCode;

fn main() -> ExitCode {
    let words: Vec<String> = std::env::args().skip(1).collect();
    told::told(match words.as_slice() {
        [file, bound, m] => shown(file, bound, m),
        _ => Err("usage: day FILE BOUND M: a bound as lossless, 0.25 or 5%, and the bytes of metadata of a segment".to_string()),
    })
}

fn shown(file: &str, bound: &str, m: &str) -> Result<String, String> {
    let readings = readings::of_file(file)?;
    let error_bound = readings::bound(bound)?;
    let m = size::size(m)?;
    let stored = store::store(&readings.times, &readings.values, error_bound, m);
    let stored = stored.map_err(|why| why.to_string())?;
    show::show(&readings, &stored, m).map_err(|why| why.to_string())
}
