//! A night's readings stored with a place table, and an hour of them read without the rest. Usage: `night FILE
//! BOUND TIME`, a file with a time and a value on each line, a bound (`lossless`, `0.5`, `5%`), and when the
//! hour begins (`21:00`).

#[path = "../shared/readings.rs"]
mod readings;
mod show;
mod stored;
#[path = "../shared/told.rs"]
mod told;
#[path = "../shared/words.rs"]
mod words;

use std::process::ExitCode;

fn main() -> ExitCode {
    let words: Vec<String> = std::env::args().skip(1).collect();
    told::told(match words.as_slice() {
        [file, bound, time] => shown(file, bound, time),
        _ => Err("usage: night FILE BOUND TIME, as night.txt lossless 21:00".to_string()),
    })
}

fn shown(file: &str, bound: &str, time: &str) -> Result<String, String> {
    let readings = readings::of_file(file)?;
    let error_bound = readings::bound(bound)?;
    let stored = stored::store(&readings.values, error_bound);
    let stored = stored.map_err(|refusal| refusal.to_string())?;
    show::show(&readings, &stored, time)
}
