//! The calls of PMC-Mean and Swing.

use super::Words;
use crate::Fault;

mod c {
    use crate::Fault;

    unsafe extern "C" {
        pub unsafe fn modelardb_pmc_mean_new(
            kind: u32,
            bound: u32,
            state: *mut u64,
            state_len: usize,
        ) -> Fault;
        pub unsafe fn modelardb_pmc_mean_fit_value(
            state: *mut u64,
            state_len: usize,
            value: u32,
        ) -> Fault;
        pub unsafe fn modelardb_pmc_mean_bytes_per_value(
            state: *const u64,
            state_len: usize,
            m: usize,
            out: *mut u32,
            out_len: usize,
        ) -> Fault;
        pub unsafe fn modelardb_pmc_mean_model(
            state: *const u64,
            state_len: usize,
            out: *mut u32,
            out_len: usize,
        ) -> Fault;
        pub unsafe fn modelardb_pmc_mean_sum(
            count: usize,
            value: u32,
            out: *mut u32,
            out_len: usize,
        ) -> Fault;
        pub unsafe fn modelardb_pmc_mean_grid(
            value: u32,
            count: usize,
            out: *mut u32,
            out_len: usize,
        ) -> Fault;
        pub unsafe fn modelardb_swing_new(
            kind: u32,
            bound: u32,
            state: *mut u64,
            state_len: usize,
        ) -> Fault;
        pub unsafe fn modelardb_swing_fit_data_point(
            state: *mut u64,
            state_len: usize,
            timestamp: i64,
            value: u32,
        ) -> Fault;
        pub unsafe fn modelardb_swing_bytes_per_value(
            state: *const u64,
            state_len: usize,
            m: usize,
            out: *mut u32,
            out_len: usize,
        ) -> Fault;
        pub unsafe fn modelardb_swing_model(
            state: *const u64,
            state_len: usize,
            out: *mut u32,
            out_len: usize,
        ) -> Fault;
        pub unsafe fn modelardb_swing_sum_by_average(
            start_time: i64,
            end_time: i64,
            first_value: u32,
            last_value: u32,
            count: usize,
            out: *mut u32,
            out_len: usize,
        ) -> Fault;
        pub unsafe fn modelardb_swing_sum_over(
            start_time: i64,
            end_time: i64,
            first_value: u32,
            last_value: u32,
            timestamps: *const i64,
            timestamps_len: usize,
            out: *mut u32,
            out_len: usize,
        ) -> Fault;
        pub unsafe fn modelardb_swing_grid(
            start_time: i64,
            end_time: i64,
            first_value: u32,
            last_value: u32,
            timestamps: *const i64,
            timestamps_len: usize,
            out: *mut u32,
            out_len: usize,
        ) -> Fault;
    }
}

/// How many words a state of PMC-Mean has: the bound's kind and bits; the least and the greatest
/// value; the bits of the sum; the length; and 1 where the last step's value fitted, else 0.
pub const PMC_MEAN_WORDS: usize = 7;

/// How many words a state of Swing has: the bound's kind and bits; the first and the last time; the
/// bits of the first value, of slope and intercept of the upper and of the lower line, and of the
/// fraction whose value is the slope with the least error; the length; and 1 where the last step's
/// point fitted, else 0.
pub const SWING_WORDS: usize = 13;

/// The two ends of a line: its times, and the bits of its values.
pub type Ends = ((i64, i64), (u32, u32));

/// The first seven words of `state` become a fresh state.
pub fn pmc_mean_new((kind, bound): Words, state: &mut [u64]) -> Fault {
    // SAFETY: start and length are those of a slice lent for the call.
    unsafe { c::modelardb_pmc_mean_new(kind, bound, state.as_mut_ptr(), state.len()) }
}

/// `state` becomes the one after the value, and its last word says whether
/// the value fitted.
pub fn pmc_mean_fit_value(state: &mut [u64], value: u32) -> Fault {
    // SAFETY: start and length are those of a slice lent for the call.
    unsafe { c::modelardb_pmc_mean_fit_value(state.as_mut_ptr(), state.len(), value) }
}

/// `out[0]` becomes the bits of the bytes for each value.
pub fn pmc_mean_bytes_per_value(state: &[u64], m: usize, out: &mut [u32]) -> Fault {
    let (start, length) = (out.as_mut_ptr(), out.len());
    // SAFETY: each start and length are those of a slice lent for the call, and they do not overlap.
    unsafe { c::modelardb_pmc_mean_bytes_per_value(state.as_ptr(), state.len(), m, start, length) }
}

/// `out[0]` becomes the bits of the average.
pub fn pmc_mean_model(state: &[u64], out: &mut [u32]) -> Fault {
    let (start, length) = (out.as_mut_ptr(), out.len());
    // SAFETY: each start and length are those of a slice lent for the call, and they do not overlap.
    unsafe { c::modelardb_pmc_mean_model(state.as_ptr(), state.len(), start, length) }
}

/// `out[0]` becomes the bits of the sum of `count` such values.
pub fn pmc_mean_sum(count: usize, value: u32, out: &mut [u32]) -> Fault {
    // SAFETY: start and length are those of a slice lent for the call.
    unsafe { c::modelardb_pmc_mean_sum(count, value, out.as_mut_ptr(), out.len()) }
}

/// The first `count` places of `out` become the value.
pub fn pmc_mean_grid(value: u32, count: usize, out: &mut [u32]) -> Fault {
    // SAFETY: start and length are those of a slice lent for the call.
    unsafe { c::modelardb_pmc_mean_grid(value, count, out.as_mut_ptr(), out.len()) }
}

/// The first thirteen words of `state` become a fresh state.
pub fn swing_new((kind, bound): Words, state: &mut [u64]) -> Fault {
    // SAFETY: start and length are those of a slice lent for the call.
    unsafe { c::modelardb_swing_new(kind, bound, state.as_mut_ptr(), state.len()) }
}

/// `state` becomes the one after the point, and its last word says whether
/// the point fitted.
pub fn swing_fit_data_point(state: &mut [u64], timestamp: i64, value: u32) -> Fault {
    let (start, length) = (state.as_mut_ptr(), state.len());
    // SAFETY: start and length are those of a slice lent for the call.
    unsafe { c::modelardb_swing_fit_data_point(start, length, timestamp, value) }
}

/// `out[0]` becomes the bits of the bytes for each value.
pub fn swing_bytes_per_value(state: &[u64], m: usize, out: &mut [u32]) -> Fault {
    let (start, length) = (out.as_mut_ptr(), out.len());
    // SAFETY: each start and length are those of a slice lent for the call, and they do not overlap.
    unsafe { c::modelardb_swing_bytes_per_value(state.as_ptr(), state.len(), m, start, length) }
}

/// `out[0]` and `out[1]` become the bits of the first and the last value.
pub fn swing_model(state: &[u64], out: &mut [u32]) -> Fault {
    let (start, length) = (out.as_mut_ptr(), out.len());
    // SAFETY: each start and length are those of a slice lent for the call, and they do not overlap.
    unsafe { c::modelardb_swing_model(state.as_ptr(), state.len(), start, length) }
}

/// `out[0]` becomes the bits of the sum of `count` values of the line, by
/// the average of its ends.
pub fn swing_sum_by_average(
    ((start_time, end_time), (first_value, last_value)): Ends,
    count: usize,
    out: &mut [u32],
) -> Fault {
    let (start, length) = (out.as_mut_ptr(), out.len());
    // SAFETY: start and length are those of a slice lent for the call.
    unsafe {
        c::modelardb_swing_sum_by_average(
            start_time,
            end_time,
            first_value,
            last_value,
            count,
            start,
            length,
        )
    }
}

/// How the two calls over a list of times look in C.
type Drawing =
    unsafe extern "C" fn(i64, i64, u32, u32, *const i64, usize, *mut u32, usize) -> Fault;

/// One of them on slices.
fn draw(call: Drawing, ends: Ends, timestamps: &[i64], out: &mut [u32]) -> Fault {
    let ((start_time, end_time), (first_value, last_value)) = ends;
    // SAFETY: the call is one of those two; each start and length are those of a slice lent for it, and
    // they do not overlap.
    unsafe {
        call(
            start_time,
            end_time,
            first_value,
            last_value,
            timestamps.as_ptr(),
            timestamps.len(),
            out.as_mut_ptr(),
            out.len(),
        )
    }
}

/// `out[0]` becomes the bits of the sum of the line's values at the times.
pub fn swing_sum_over(ends: Ends, timestamps: &[i64], out: &mut [u32]) -> Fault {
    draw(c::modelardb_swing_sum_over, ends, timestamps, out)
}

/// The front of `out` becomes the line's values at the times.
pub fn swing_grid(ends: Ends, timestamps: &[i64], out: &mut [u32]) -> Fault {
    draw(c::modelardb_swing_grid, ends, timestamps, out)
}
