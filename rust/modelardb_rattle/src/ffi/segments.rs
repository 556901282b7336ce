//! The calls of parameter bytes and segments.

use super::Words;
use crate::Fault;

mod c {
    use crate::Fault;

    unsafe extern "C" {
        pub unsafe fn modelardb_encode_values_for_pmc_mean(
            value: u32,
            residuals_min_value: u32,
            residuals_max_value: u32,
            out: *mut u8,
            out_len: usize,
            row: *mut u64,
            row_len: usize,
        ) -> Fault;
        pub unsafe fn modelardb_encode_values_for_swing(
            first_value: u32,
            last_value: u32,
            residuals_min_value: u32,
            residuals_max_value: u32,
            out: *mut u8,
            out_len: usize,
            row: *mut u64,
            row_len: usize,
        ) -> Fault;
        pub unsafe fn modelardb_decode_values_for_pmc_mean(
            min_value: u32,
            max_value: u32,
            values: *const u8,
            values_len: usize,
            out: *mut u32,
            out_len: usize,
        ) -> Fault;
        pub unsafe fn modelardb_decode_values_for_swing(
            min_value: u32,
            max_value: u32,
            values: *const u8,
            values_len: usize,
            out: *mut u32,
            out_len: usize,
        ) -> Fault;
        pub unsafe fn modelardb_segment_write(
            model: u32,
            first_value: u32,
            last_value: u32,
            kind: u32,
            bound: u32,
            residuals: *const u32,
            residuals_len: usize,
            values_out: *mut u8,
            values_out_len: usize,
            residuals_out: *mut u8,
            residuals_out_len: usize,
            segment: *mut u64,
            segment_len: usize,
        ) -> Fault;
        pub unsafe fn modelardb_segment_grid(
            model: u32,
            timestamps: *const i64,
            timestamps_len: usize,
            min_value: u32,
            max_value: u32,
            values: *const u8,
            values_len: usize,
            residuals: *const u8,
            residuals_len: usize,
            out: *mut u32,
            out_len: usize,
        ) -> Fault;
        pub unsafe fn modelardb_segment_sum_by_average(
            model: u32,
            timestamps: *const i64,
            timestamps_len: usize,
            min_value: u32,
            max_value: u32,
            values: *const u8,
            values_len: usize,
            residuals: *const u8,
            residuals_len: usize,
            out: *mut u32,
            out_len: usize,
        ) -> Fault;
        pub unsafe fn modelardb_segment_sum_over(
            model: u32,
            timestamps: *const i64,
            timestamps_len: usize,
            min_value: u32,
            max_value: u32,
            values: *const u8,
            values_len: usize,
            residuals: *const u8,
            residuals_len: usize,
            out: *mut u32,
            out_len: usize,
        ) -> Fault;
    }
}

/// How many words a written segment has: the bits of its least and of its greatest value; how many
/// parameter bytes and how many residual bytes there are.
pub const SEGMENT_WORDS: usize = 4;

/// The most parameter bytes of a segment.
pub const MOST_VALUES_BYTES: usize = 8;

/// The most residual bytes that a written segment has: those of a stream of 255 values without a first one, and the
/// byte that counts them. One that another program wrote may have up to 1,436, and is read too.
pub const MOST_RESIDUALS_BYTES: usize = 1_404;

/// The bits of two values: a least and a greatest one, or a model's first and last.
pub type Pair = (u32, u32);

/// A segment as it is read.
#[derive(Clone, Copy, Debug)]
pub struct StoredSegment<'a> {
    /// Its model's number.
    pub model: u32,
    /// The bits of its least and of its greatest value.
    pub extremes: Pair,
    /// Its parameter bytes.
    pub values: &'a [u8],
    /// Its residual bytes.
    pub residuals: &'a [u8],
}

/// The front of `out` becomes PMC-Mean's parameter bytes, and `row[0]` how
/// many they are. The residuals' extremes are both 7FC00000 where there are none.
pub fn encode_values_for_pmc_mean(
    value: u32,
    (min, max): Pair,
    out: &mut [u8],
    row: &mut [u64],
) -> Fault {
    let (start, length) = (out.as_mut_ptr(), out.len());
    let (words, room) = (row.as_mut_ptr(), row.len());
    // SAFETY: each start and length are those of a slice lent for the call, and they do not overlap.
    unsafe { c::modelardb_encode_values_for_pmc_mean(value, min, max, start, length, words, room) }
}

/// The same of Swing.
pub fn encode_values_for_swing(
    (first, last): Pair,
    (min, max): Pair,
    out: &mut [u8],
    row: &mut [u64],
) -> Fault {
    let (start, length) = (out.as_mut_ptr(), out.len());
    let (words, room) = (row.as_mut_ptr(), row.len());
    // SAFETY: each start and length are those of a slice lent for the call, and they do not overlap.
    unsafe {
        c::modelardb_encode_values_for_swing(first, last, min, max, start, length, words, room)
    }
}

/// `out[0]` becomes the bits of the value that PMC-Mean's parameter bytes
/// give with the segment's extremes.
pub fn decode_values_for_pmc_mean((min, max): Pair, values: &[u8], out: &mut [u32]) -> Fault {
    let (places, room) = (out.as_mut_ptr(), out.len());
    let (start, length) = (values.as_ptr(), values.len());
    // SAFETY: each start and length are those of a slice lent for the call, and they do not overlap.
    unsafe { c::modelardb_decode_values_for_pmc_mean(min, max, start, length, places, room) }
}

/// `out[0]` and `out[1]` become the bits of the first and the last value
/// that Swing's parameter bytes give with the segment's extremes.
pub fn decode_values_for_swing((min, max): Pair, values: &[u8], out: &mut [u32]) -> Fault {
    let (places, room) = (out.as_mut_ptr(), out.len());
    let (start, length) = (values.as_ptr(), values.len());
    // SAFETY: each start and length are those of a slice lent for the call, and they do not overlap.
    unsafe { c::modelardb_decode_values_for_swing(min, max, start, length, places, room) }
}

/// The front of the two outputs become the parameter bytes and the residual
/// bytes, and the first four words of `segment` the written segment's.
pub fn segment_write(
    (model, (first, last)): (u32, Pair),
    (kind, bound): Words,
    residuals: &[u32],
    values_out: &mut [u8],
    residuals_out: &mut [u8],
    segment: &mut [u64],
) -> Fault {
    // SAFETY: each start and length are those of a slice lent for the call, and no two overlap.
    unsafe {
        c::modelardb_segment_write(
            model,
            first,
            last,
            kind,
            bound,
            residuals.as_ptr(),
            residuals.len(),
            values_out.as_mut_ptr(),
            values_out.len(),
            residuals_out.as_mut_ptr(),
            residuals_out.len(),
            segment.as_mut_ptr(),
            segment.len(),
        )
    }
}

/// How the three calls that read a segment look in C.
type Reading = unsafe extern "C" fn(
    u32,
    *const i64,
    usize,
    u32,
    u32,
    *const u8,
    usize,
    *const u8,
    usize,
    *mut u32,
    usize,
) -> Fault;

/// One of them on slices.
fn read(call: Reading, segment: StoredSegment, timestamps: &[i64], out: &mut [u32]) -> Fault {
    let (min_value, max_value) = segment.extremes;
    // SAFETY: the call is one of those three; each start and length are those of a slice lent for it,
    // and no two overlap.
    unsafe {
        call(
            segment.model,
            timestamps.as_ptr(),
            timestamps.len(),
            min_value,
            max_value,
            segment.values.as_ptr(),
            segment.values.len(),
            segment.residuals.as_ptr(),
            segment.residuals.len(),
            out.as_mut_ptr(),
            out.len(),
        )
    }
}

/// The front of `out` becomes the segment's values at the timestamps, the
/// model's and then the residuals'.
pub fn segment_grid(segment: StoredSegment, timestamps: &[i64], out: &mut [u32]) -> Fault {
    read(c::modelardb_segment_grid, segment, timestamps, out)
}

/// `out[0]` becomes the bits of the sum of the segment's values, Swing's by
/// the average of its ends.
pub fn segment_sum_by_average(
    segment: StoredSegment,
    timestamps: &[i64],
    out: &mut [u32],
) -> Fault {
    let call = c::modelardb_segment_sum_by_average;
    read(call, segment, timestamps, out)
}

/// The same, with Swing's values added up one by one.
pub fn segment_sum_over(segment: StoredSegment, timestamps: &[i64], out: &mut [u32]) -> Fault {
    read(c::modelardb_segment_sum_over, segment, timestamps, out)
}
