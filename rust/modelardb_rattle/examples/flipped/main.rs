//! What a stream says once it is altered: the format has no checksum, so a flipped bit is often read as other
//! values; where it is refused, that is told at the altered value or behind it. Usage: `flipped FILE BOUND`, a
//! file with a time and a value on each line, and a bound (`0.25`, `5%`): the values are written lossless and
//! within the bound, and each stream is altered in every place.

mod damage;
#[path = "../shared/readings.rs"]
mod readings;
mod show;
#[path = "../shared/told.rs"]
mod told;

use std::process::ExitCode;

fn main() -> ExitCode {
    let words: Vec<String> = std::env::args().skip(1).collect();
    told::told(match words.as_slice() {
        [file, bound] => shown(file, bound),
        _ => Err("usage: flipped FILE BOUND".to_string()),
    })
}

fn shown(file: &str, bound: &str) -> Result<String, String> {
    let readings = readings::of_file(file)?;
    let mut bounds = vec![];
    for word in ["lossless", bound] {
        bounds.push((word, readings::bound(word)?));
    }
    show::show(&readings.values, &bounds).map_err(|refusal| refusal.to_string())
}
