//! The hour that was asked for, and how much of the night was read for it.

use crate::readings::Readings;
use crate::stored::Stored;
use crate::words::counted;
use modelardb_rattle::PlaceTable;
use std::fmt::Write;
use std::ops::Range;

/// How many readings stand on a line.
const A_LINE: usize = 10;

pub fn show(readings: &Readings, stored: &Stored, time: &str) -> Result<String, String> {
    let Readings { names, times, .. } = readings;
    let asked = hour(times, readings.minute(time)?);
    let (Some(first), Some(last)) = (names.first(), names.last()) else {
        return Err("no readings".to_string());
    };
    if asked.is_empty() {
        return Err(format!(
            "no readings in the hour from {time} on: there are those from {first} to {last}, and a time before the first is the next day's"
        ));
    }
    let values = stored.range(asked.clone());
    let values = values.map_err(|refusal| refusal.to_string())?;
    let mut text = String::new();
    _ = writeln!(
        text,
        "{} from {first} to {last}, stored in {} and a table of {}",
        counted(stored.count, "reading"),
        counted(stored.bytes.len(), "byte"),
        counted(stored.table.entries(), "place")
    );
    _ = writeln!(
        text,
        "the hour from {time} on: readings {} to {}, found by their times",
        asked.start,
        asked.end - 1
    );
    let lines = names[asked.clone()].chunks(A_LINE);
    for (names, values) in lines.zip(values.chunks(A_LINE)) {
        let shown: String = values.iter().map(|value| format!(" {value:.2}")).collect();
        _ = writeln!(text, "{} {shown}", names[0]);
    }
    let decoded = PlaceTable::decoded(asked);
    _ = writeln!(
        text,
        "{} {} decoded instead of {}: from reading {} on, the last place before them",
        counted(decoded.len(), "value"),
        if decoded.len() == 1 { "was" } else { "were" },
        stored.count,
        decoded.start
    );
    Ok(text)
}

/// The numbers of the readings from a minute on, for an hour. The times increase.
fn hour(times: &[i64], begin: i64) -> Range<usize> {
    let before = |minute: i64| times.partition_point(|&time| time < minute);
    before(begin)..before(begin + 60)
}
