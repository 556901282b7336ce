//! Where an upload broke, and the values before that. Usage: `broken < FILE`, where the file is one that `list`
//! reads: a count, four bytes with the lowest first, and a stream with its first value in full. Whether those
//! values are the ones that were sent is said in docs/BROKEN-UPLOADS.md.

#[path = "../shared/told.rs"]
mod told;

use modelardb_rattle::{Opening, Reader, Refusal, macaque_v};
use std::fmt::Write;
use std::io::{Read, stdin};
use std::process::ExitCode;

fn main() -> ExitCode {
    told::told(match std::env::args().len() {
        1 => shown(),
        _ => Err("usage: broken < FILE".to_string()),
    })
}

fn shown() -> Result<String, String> {
    let mut input = vec![];
    let read = stdin().read_to_end(&mut input);
    read.map_err(|why| format!("the input could not be read: {why}"))?;
    let Some((count, stream)) = input.split_first_chunk() else {
        return Err("the input has fewer than the four bytes of a count".to_string());
    };
    let count = u32::from_le_bytes(*count) as usize;
    Ok(match macaque_v::sum(stream, count, Opening::First) {
        Ok(_) => format!("{count} values, and nothing is refused\n"),
        Err(refusal) => before(stream, refusal),
    })
}

/// The refusal, and the values that were read before it, each with the bit at which its code begins.
fn before(stream: &[u8], refusal: Refusal) -> String {
    let mut text = format!("{refusal}\n");
    let mut reader = Reader::open(stream, Opening::First);
    for number in 0..refusal.fault().value {
        let place = reader.place();
        let Ok(value) = reader.next_value() else {
            break;
        };
        _ = writeln!(text, "value {number}, from bit {place}: {value}");
    }
    text
}
