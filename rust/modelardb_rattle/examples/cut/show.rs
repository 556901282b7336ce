//! What is kept of an upload that was cut at a byte, and how it goes on.

use crate::readings::Readings;
use crate::stream::{Upload, likeness, resumed, written};
use crate::words::counted;
use modelardb_rattle::{ErrorBound, MacaqueV, Opening, Refusal};
use std::fmt::Write;

/// Of so many bytes that arrived, or of half of what was sent.
pub fn show(
    readings: &Readings,
    error_bound: ErrorBound,
    arrived: Option<&str>,
) -> Result<String, String> {
    let Readings { names, values, .. } = readings;
    let refused = |refusal: Refusal| refusal.to_string();
    let whole = written(values, error_bound).map_err(refused)?;
    let sent = whole.1.len();
    let used = arrived.map_or(Ok(sent / 2), |word| number(word, sent))?;
    let kept = rescued(&whole.1[..used], values.len(), error_bound).map_err(refused)?;
    let k = kept.0.length();
    let mut text = format!(
        "{}{} were sent in {}, of which {used} arrived\n",
        counted(values.len(), "reading"),
        span(names),
        counted(sent, "byte")
    );
    let is_whole = k == values.len();
    let told = told(&kept.0, &names[..k], 8 * used, is_whole);
    _ = writeln!(text, "kept: {told}");
    let rest = counted(values.len() - k, "reading");
    _ = writeln!(text, "sent again: {rest}{}", span(&names[k..]));
    let again = resumed(kept, &values[k..]).map_err(refused)?;
    let same = likeness(&again, &whole);
    _ = writeln!(
        text,
        "bytes and state, the sum among it, are {same} as of one run"
    );
    Ok(text)
}

/// The writer behind the readings that arrived whole, and the bytes that they take. The count of the upload is the limit.
fn rescued(arrived: &[u8], count: usize, error_bound: ErrorBound) -> Result<Upload, Refusal> {
    let (mut bytes, used) = (arrived.to_vec(), arrived.len());
    let writer = MacaqueV::rescue(&mut bytes, used, count, Opening::First, error_bound)?;
    bytes.truncate(writer.bytes_used());
    Ok((writer, bytes))
}

/// How many readings are kept, their mean and how many bits they take, and, where others are missing, how many bits of
/// the next one arrived.
fn told(writer: &MacaqueV, names: &[String], bits: usize, is_whole: bool) -> String {
    let mean = writer.mean().map(|mean| format!(", mean {mean:.2}"));
    let mut text = format!(
        "{}{}{}, in {}",
        counted(writer.length(), "reading"),
        span(names),
        mean.unwrap_or_default(),
        counted(writer.place(), "bit")
    );
    if !is_whole {
        let more = counted(bits - writer.place(), "bit");
        text += &format!("; dropped: {more} of the next one");
    }
    text
}

/// From the first time to the last.
fn span(names: &[String]) -> String {
    match names {
        [] => String::new(),
        [only] => format!(" at {only}"),
        [first, .., last] => format!(" from {first} to {last}"),
    }
}

/// A number of bytes, no more than were sent.
fn number(word: &str, sent: usize) -> Result<usize, String> {
    let number = word.parse().ok().filter(|&number| number <= sent);
    number.ok_or_else(|| format!("{word} bytes cannot have arrived: {sent} were sent"))
}
