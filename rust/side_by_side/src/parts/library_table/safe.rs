//! The safe types over the same calls.

use super::Tabled;
use crate::context::Context;
use crate::face::{placed, safe_bound, safe_opening};
use modelardb_rattle::{self as library, PlaceTable, Refusal, TabledWriter};
use oracle::paper::macaque_v::Opening;
use oracle::paper::models::ErrorBound;

/// Written in two goes, reopened at the first, checked and read: what the calls on words give.
pub fn written(context: &mut Context, bound: ErrorBound, opening: Opening, tabled: &Tabled) {
    let half = tabled.count() / 2;
    let hour = half..tabled.count().min(half + 12);
    let input = || {
        format!(
            "safe types {bound:X?} {opening:X?} {:08X?}",
            tabled.stream.values
        )
    };
    let words = &tabled.table.words[..];
    let made = by_the_types(safe_bound(bound), safe_opening(opening), tabled, half);
    let expected = (words.to_vec(), tabled.stream.bytes.clone());
    context.same("safe types", Ok(expected), placed(made), input);
    let table = PlaceTable::from_words(words.to_vec());
    let (bytes, count, _) = tabled.stored();
    let checked = placed(table.check(bytes, count, safe_opening(opening)));
    context.same("safe check", Ok(()), checked, input);
    let all = tabled.values(context);
    let read = placed(table.range_bits(bytes, count, safe_opening(opening), hour.clone()));
    context.same("safe range", Ok(all[hour].to_vec()), read, input);
}

/// The table's words and the bytes.
fn by_the_types(
    bound: library::ErrorBound,
    opening: library::Opening,
    tabled: &Tabled,
    half: usize,
) -> Result<(Vec<u64>, Vec<u8>), Refusal> {
    let (values, count) = (&tabled.stream.values, tabled.count());
    let mut buffer = vec![0; tabled.stream.bytes.len()];
    let mut writer = TabledWriter::new(bound, opening)?;
    writer.compress_values_bits(&values[..half], &mut buffer)?;
    writer.compress_values_bits(&values[half..], &mut buffer)?;
    let (used, table) = (writer.writer().bytes_used(), writer.table());
    let mut on = TabledWriter::reopen(&mut buffer, used, count, half, opening, bound, table)?;
    on.compress_values_bits(&values[half..], &mut buffer)?;
    assert_eq!(on, writer, "resumed as it was in one run");
    Ok((writer.table().words().to_vec(), buffer))
}
