//! The most bytes of a stream, by how long readings come and how far they are apart, and those of a place table.

use crate::words::counted;
use modelardb_rattle::{MacaqueV, Opening, PlaceTable};
use std::fmt::Write;

/// An entry of a place table is four words of eight bytes.
const ENTRY_BYTES: usize = 32;

const SECONDS_PER_HOUR: usize = 3_600;

/// Spans, in hours.
const SPANS: [(&str, usize); 3] = [
    ("an hour", 1),
    ("a night, 18:00 to 08:00", 14),
    ("a week", 7 * 24),
];

/// How far readings are apart, in seconds.
const APART: [(&str, usize); 3] = [("5 minutes", 300), ("minute", 60), ("10 seconds", 10)];

/// A span and how far its readings are apart, each in words and as a number.
type Asked<'a> = [(&'a str, usize); 2];

/// The table of what is asked for most.
pub fn usual() -> Result<String, String> {
    let of_span = |span| APART.map(|apart| [span, apart]);
    table(&SPANS.map(of_span).concat())
}

/// A table of one line, for the two numbers that these words are.
pub fn asked(seconds: &str, hours: &str) -> Result<String, String> {
    let (seconds, hours) = (number(seconds, "seconds")?, number(hours, "hours")?);
    let (apart, span) = (counted(seconds, "second"), counted(hours, "hour"));
    table(&[[(&span, hours), (&apart, seconds)]])
}

fn table(asked: &[Asked]) -> Result<String, String> {
    let mut text = String::from(
        "span                     a reading every  readings  bytes at most  bytes of a place table\n",
    );
    for &[(span, hours), (apart, seconds)] in asked {
        let readings = hours * SECONDS_PER_HOUR / seconds + 1;
        let (bytes, beside) = sizes(readings).ok_or_else(|| too_many(readings, span, apart))?;
        _ = writeln!(
            text,
            "{span:23}  {apart:15}  {readings:8}  {bytes:13}  {beside:22}"
        );
    }
    text += "readings       how many come in the span at most, one at each end of it among them\n\
             bytes at most  of their stream, the first in full, whatever they are and whatever the bound\n";
    Ok(text)
}

/// The most bytes of a stream of so many readings, and those of its place table; nothing where they are too many.
fn sizes(readings: usize) -> Option<(usize, usize)> {
    let bytes = MacaqueV::most_bytes(readings, Opening::First).ok()?;
    Some((bytes, ENTRY_BYTES * PlaceTable::entries_for(readings)))
}

/// Which limit is passed, and what is to be done.
fn too_many(readings: usize, span: &str, apart: &str) -> String {
    let most = MacaqueV::MOST_VALUES;
    let streams = readings.div_ceil(most);
    let mut text = format!(
        "{readings} readings come in {span}, one every {apart}\n\
         a stream takes at most {most} values: cut these into {streams} streams or more, each with a writer, a count and a table of its own"
    );
    for part in [most, readings % most] {
        if let Some((bytes, beside)) = sizes(part).filter(|_| part > 0) {
            _ = write!(
                text,
                "\na stream of {part}: {bytes} bytes at most, and {beside} of a place table"
            );
        }
    }
    text
}

/// A whole number above 0.
fn number(word: &str, unit: &str) -> Result<usize, String> {
    match word.parse::<u32>() {
        Ok(number) if number > 0 => Ok(number as usize),
        _ => Err(format!(
            "{word:?} is no number of {unit}: a whole one from 1 to {}",
            u32::MAX
        )),
    }
}
