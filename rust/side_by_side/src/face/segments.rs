//! Parameter bytes and segments. A row beside other outputs is judged with them: 4.

use super::fit::in_room;
use super::{allowed_bound, told};
use modelardb_rattle::Fault;
use modelardb_rattle::ffi::{Pair, SEGMENT_WORDS, StoredSegment, Words};
use oracle::paper::refusal::{LIMIT, OUTPUT};
use oracle::paper::segments::{self, Segment, Written};
use oracle::paper::types::{self, Extremes, SWING_ID};
use oracle::paper::{Answer, Fault as Refused, MOST_RESIDUALS, refuse_if};

pub fn encode_values_for_pmc_mean(
    value: u32,
    residuals: Pair,
    out: &mut [u8],
    row: &mut [u64],
) -> Fault {
    let encode = types::encode_values_for_pmc_mean;
    encoded(row, || encode(value, extremes(residuals), out))
}

pub fn encode_values_for_swing(
    (first, last): Pair,
    residuals: Pair,
    out: &mut [u8],
    row: &mut [u64],
) -> Fault {
    let encode = types::encode_values_for_swing;
    encoded(row, || encode(first, last, extremes(residuals), out))
}

/// How many bytes a form has into the row.
fn encoded(row: &mut [u64], call: impl FnOnce() -> Answer<usize>) -> Fault {
    told(|| {
        refuse_if(row.is_empty(), OUTPUT)?;
        row[0] = call()? as u64;
        Ok(())
    })
}

pub fn decode_values_for_pmc_mean(segment: Pair, values: &[u8], out: &mut [u32]) -> Fault {
    let value = types::decode_values_for_pmc_mean(extremes(segment), values);
    answered(value.map(|value| [value]), out)
}

pub fn decode_values_for_swing(segment: Pair, values: &[u8], out: &mut [u32]) -> Fault {
    let ends = types::decode_values_for_swing(extremes(segment), values);
    answered(ends.map(|(first, last)| [first, last]), out)
}

pub fn segment_write(
    (model, ends): (u32, Pair),
    bound: Words,
    residuals: &[u32],
    values_out: &mut [u8],
    residuals_out: &mut [u8],
    row: &mut [u64],
) -> Fault {
    told(|| {
        let bound = allowed_bound(bound)?;
        let is_over = model > SWING_ID || residuals.len() > MOST_RESIDUALS;
        refuse_if(is_over, LIMIT)?;
        refuse_if(row.len() < SEGMENT_WORDS, OUTPUT)?;
        let written = segments::write(model, ends, bound, residuals, values_out, residuals_out)?;
        row[..SEGMENT_WORDS].copy_from_slice(&words(written));
        Ok(())
    })
}

pub fn segment_grid(segment: StoredSegment, timestamps: &[i64], out: &mut [u32]) -> Fault {
    told(|| read(segment, timestamps).grid(out))
}

pub fn segment_sum_by_average(
    segment: StoredSegment,
    timestamps: &[i64],
    out: &mut [u32],
) -> Fault {
    let sum = read(segment, timestamps).sum_by_average();
    answered(sum.map(|sum| [sum]), out)
}

pub fn segment_sum_over(segment: StoredSegment, timestamps: &[i64], out: &mut [u32]) -> Fault {
    let sum = read(segment, timestamps).sum_over_times();
    answered(sum.map(|sum| [sum]), out)
}

/// An answer to the front of the only output.
fn answered<const N: usize>(
    answer: Result<[u32; N], impl Into<Refused>>,
    out: &mut [u32],
) -> Fault {
    told(|| {
        let answer = in_room(answer, N, out.len())?;
        out[..N].copy_from_slice(&answer);
        Ok(())
    })
}

/// A segment as the paper's program reads it.
pub fn read<'a>(segment: StoredSegment<'a>, timestamps: &'a [i64]) -> Segment<'a> {
    Segment {
        model: segment.model,
        timestamps,
        extremes: extremes(segment.extremes),
        values: segment.values,
        residuals: segment.residuals,
    }
}

pub fn extremes((min_value, max_value): Pair) -> Extremes {
    Extremes {
        min_value,
        max_value,
    }
}

/// A written segment's words.
fn words(written: Written) -> [u64; SEGMENT_WORDS] {
    [
        written.extremes.min_value.into(),
        written.extremes.max_value.into(),
        written.values_length as u64,
        written.residuals_length as u64,
    ]
}
