//! How large a stream can get, for whoever sizes buffers before the readings come. Usage: `room` for an hour, a
//! night and a week, or `room SECONDS HOURS` for a reading every so many seconds through so many hours.

mod show;
#[path = "../shared/told.rs"]
mod told;
#[path = "../shared/words.rs"]
mod words;

use std::process::ExitCode;

fn main() -> ExitCode {
    let words: Vec<String> = std::env::args().skip(1).collect();
    told::told(match words.as_slice() {
        [] => show::usual(),
        [seconds, hours] => show::asked(seconds, hours),
        _ => Err("usage: room, or room SECONDS HOURS, as room 30 14".to_string()),
    })
}
