//! The place table by document 02, behind rows and words.

use super::{allowed_bound, judge_rescue, opening_in, put, put_written, rescue_in, state_in, told};
use modelardb_rattle::Fault;
use modelardb_rattle::ffi::{STATE_WORDS, Words};
use oracle::paper::place_table::{self, Reopening};
use oracle::paper::refusal::OUTPUT;
use oracle::paper::refuse_if;
use std::ops::Range;

pub fn compress_values(
    row: &mut [u64],
    values: &[u32],
    buffer: &mut [u8],
    table: &mut [u64],
    entries: &mut usize,
) -> Fault {
    told(|| {
        let state = state_in(row)?;
        let (after, used) = place_table::compress_values(state, values, buffer, table, *entries)?;
        put_written(row, after);
        *entries = used;
        Ok(())
    })
}

/// 4 for the row has its place behind 13.
pub fn reopen(
    buffer: &mut [u8],
    used: usize,
    (count, k): (usize, usize),
    opening: Words,
    bound: Words,
    row: &mut [u64],
    (table, entries): (&[u64], &mut usize),
) -> Fault {
    told(|| {
        let reopening = Reopening {
            error_bound: allowed_bound(bound)?,
            opening: opening_in(opening)?,
            used,
            count,
            k,
        };
        reopening.judge(buffer.len(), table, *entries)?;
        refuse_if(row.len() < STATE_WORDS, OUTPUT)?;
        let (state, kept) = reopening.reopen(buffer, table, *entries)?;
        put(row, state);
        *entries = kept;
        Ok(())
    })
}

/// 4 is for the row or for the table.
pub fn rescue(
    buffer: &mut [u8],
    used: usize,
    limit: usize,
    opening: Words,
    bound: Words,
    row: &mut [u64],
    (table, entries): (&mut [u64], &mut usize),
) -> Fault {
    told(|| {
        let rescue = rescue_in(used, limit, opening, bound)?;
        judge_rescue(&rescue, buffer, row)?;
        let (state, in_use) = rescue.with_table(buffer, table)?;
        put(row, state);
        *entries = in_use;
        Ok(())
    })
}

pub fn check(
    bytes: &[u8],
    count: usize,
    opening: Words,
    (table, entries): (&[u64], usize),
) -> Fault {
    told(|| place_table::check(bytes, count, opening_in(opening)?, table, entries))
}

pub fn range(
    bytes: &[u8],
    count: usize,
    opening: Words,
    table: (&[u64], usize),
    values: Range<usize>,
    out: &mut [u32],
) -> Fault {
    told(|| {
        let opening = opening_in(opening)?;
        place_table::range((bytes, count, opening), table, values, out)
    })
}
