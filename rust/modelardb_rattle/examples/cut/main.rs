//! An upload that was cut at a byte, rescued and resumed. Usage: `cut FILE BOUND [BYTES]`, a file with a time and a
//! value on each line, a bound (`lossless`, `0.5`, `5%`), and how many bytes of the upload arrived, half of them where
//! no number is given.

#[path = "../shared/readings.rs"]
mod readings;
mod show;
#[path = "../shared/stream.rs"]
mod stream;
#[path = "../shared/told.rs"]
mod told;
#[path = "../shared/words.rs"]
mod words;

use std::process::ExitCode;

fn main() -> ExitCode {
    let words: Vec<String> = std::env::args().skip(1).collect();
    told::told(match words.as_slice() {
        [file, bound] => shown(file, bound, None),
        [file, bound, bytes] => shown(file, bound, Some(bytes)),
        _ => Err("usage: cut FILE BOUND [BYTES], as night.txt lossless 100 (without BYTES half of them arrive)".to_string()),
    })
}

fn shown(file: &str, bound: &str, bytes: Option<&str>) -> Result<String, String> {
    let readings = readings::of_file(file)?;
    show::show(&readings, readings::bound(bound)?, bytes)
}
