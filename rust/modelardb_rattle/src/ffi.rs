//! The C face of the proved library as functions on slices. Each that can be refused answers a
//! [`Fault`], of number 0 where it was accepted; the words below say what becomes of its outputs then.
//! The only `unsafe` of this crate stands here: each function lends slices that are valid for the whole
//! call, and no other memory but the spare room of a table's list, of which the call sets what is then in use. The
//! types of this crate are made of these calls.

mod choice;
mod fit;
mod reader;
mod segments;
mod table;

pub use choice::{
    MODEL_BUILDER_WORDS, SELECTED_MODEL_WORDS, choose_model, model_builder_finish,
    model_builder_new, model_builder_try_to_update_models,
};
pub use fit::{
    Ends, PMC_MEAN_WORDS, SWING_WORDS, pmc_mean_bytes_per_value, pmc_mean_fit_value, pmc_mean_grid,
    pmc_mean_model, pmc_mean_new, pmc_mean_sum, swing_bytes_per_value, swing_fit_data_point,
    swing_grid, swing_model, swing_new, swing_sum_by_average, swing_sum_over,
};
pub use reader::{READER_WORDS, reader_end, reader_last_value, reader_next, reader_open};
pub use segments::{
    MOST_RESIDUALS_BYTES, MOST_VALUES_BYTES, Pair, SEGMENT_WORDS, StoredSegment,
    decode_values_for_pmc_mean, decode_values_for_swing, encode_values_for_pmc_mean,
    encode_values_for_swing, segment_grid, segment_sum_by_average, segment_sum_over, segment_write,
};

pub use table::{
    ENTRY_WORDS, VALUES_PER_ENTRY, table_check, table_compress_into, table_compress_values,
    table_range, table_reopen, table_rescue,
};

use crate::Fault;

mod c {
    use crate::Fault;

    unsafe extern "C" {
        /// The bits of the f64 of an f32's value.
        pub safe fn modelardb_widen(bits: u32) -> u64;
        /// The bits of the f32 nearest to an f64's value, a tie to the even one.
        pub safe fn modelardb_narrow(bits: u64) -> u32;
        pub unsafe fn modelardb_is_value_within_error_bound(
            kind: u32,
            bound: u32,
            real: u32,
            approximate: u32,
            out: *mut u32,
            out_len: usize,
        ) -> Fault;
        pub unsafe fn modelardb_maximum_allowed_deviation(
            kind: u32,
            bound: u32,
            value: u64,
            out: *mut u64,
            out_len: usize,
        ) -> Fault;
        pub unsafe fn modelardb_macaque_v_new(
            kind: u32,
            bound: u32,
            mode: u32,
            opening: u32,
            state: *mut u64,
            state_len: usize,
        ) -> Fault;
        pub unsafe fn modelardb_macaque_v_compress_values(
            state: *mut u64,
            state_len: usize,
            values: *const u32,
            values_len: usize,
            buffer: *mut u8,
            buffer_len: usize,
        ) -> Fault;
        pub unsafe fn modelardb_macaque_v_reopen(
            buffer: *mut u8,
            buffer_len: usize,
            used: usize,
            count: usize,
            k: usize,
            mode: u32,
            opening: u32,
            kind: u32,
            bound: u32,
            state: *mut u64,
            state_len: usize,
        ) -> Fault;
        pub unsafe fn modelardb_macaque_v_rescue(
            buffer: *mut u8,
            buffer_len: usize,
            used: usize,
            limit: usize,
            mode: u32,
            opening: u32,
            kind: u32,
            bound: u32,
            state: *mut u64,
            state_len: usize,
        ) -> Fault;
        pub unsafe fn modelardb_macaque_v_grid(
            bytes: *const u8,
            bytes_len: usize,
            count: usize,
            mode: u32,
            opening: u32,
            out: *mut u32,
            out_len: usize,
        ) -> Fault;
        pub unsafe fn modelardb_macaque_v_sum(
            bytes: *const u8,
            bytes_len: usize,
            count: usize,
            mode: u32,
            opening: u32,
            out: *mut u32,
            out_len: usize,
        ) -> Fault;
        /// `bits` becomes how many bits so many values take at most in a stream of this mode.
        pub safe fn modelardb_macaque_v_most_bits(
            count: usize,
            mode: u32,
            bits: &mut usize,
        ) -> Fault;
        /// `bytes` becomes how many bytes they take at most.
        pub safe fn modelardb_macaque_v_most_bytes(
            count: usize,
            mode: u32,
            bytes: &mut usize,
        ) -> Fault;
    }
}

pub use c::{
    modelardb_macaque_v_most_bits as macaque_v_most_bits,
    modelardb_macaque_v_most_bytes as macaque_v_most_bytes, modelardb_narrow as narrow,
    modelardb_widen as widen,
};

/// A bound's kind, 0 Lossless, 1 Absolute or 2 Relative, and its bits; or how a stream opens, 0 with
/// its first value in full or 1 on a given one, and that one's bits.
pub type Words = (u32, u32);

/// `out[0]` becomes 0 or 1.
pub fn is_value_within_error_bound(
    (kind, bound): Words,
    real: u32,
    approximate: u32,
    out: &mut [u32],
) -> Fault {
    let (start, length) = (out.as_mut_ptr(), out.len());
    // SAFETY: start and length are those of a slice lent for the call.
    unsafe {
        c::modelardb_is_value_within_error_bound(kind, bound, real, approximate, start, length)
    }
}

/// `out[0]` becomes the bits of the deviation.
pub fn maximum_allowed_deviation((kind, bound): Words, value: u64, out: &mut [u64]) -> Fault {
    let (start, length) = (out.as_mut_ptr(), out.len());
    // SAFETY: start and length are those of a slice lent for the call.
    unsafe { c::modelardb_maximum_allowed_deviation(kind, bound, value, start, length) }
}

/// How many words a writer's state has: the bound's kind and bits; the least, the greatest and the
/// last kept value; the window's leading and trailing zeros; 1 where the first value is stored in
/// full; the place in bits; the length; the sum's bits.
pub const STATE_WORDS: usize = 11;

/// The first eleven words of `state` become a fresh writer's.
pub fn macaque_v_new((kind, bound): Words, (mode, opening): Words, state: &mut [u64]) -> Fault {
    let (start, length) = (state.as_mut_ptr(), state.len());
    // SAFETY: start and length are those of a slice lent for the call.
    unsafe { c::modelardb_macaque_v_new(kind, bound, mode, opening, start, length) }
}

/// The values are written behind the state's place, and `state` becomes
/// the one after them.
pub fn macaque_v_compress_values(state: &mut [u64], values: &[u32], buffer: &mut [u8]) -> Fault {
    let (row, row_length) = (state.as_mut_ptr(), state.len());
    let (start, length) = (buffer.as_mut_ptr(), buffer.len());
    // SAFETY: each start and length are those of a slice lent for the call, and no two overlap.
    unsafe {
        c::modelardb_macaque_v_compress_values(
            row,
            row_length,
            values.as_ptr(),
            values.len(),
            start,
            length,
        )
    }
}

/// `state` becomes that of the writer behind the first `k` of the `count`
/// values in the first `used` bytes, and what follows them in their last byte becomes zeros.
pub fn macaque_v_reopen(
    buffer: &mut [u8],
    used: usize,
    (count, k): (usize, usize),
    (mode, opening): Words,
    (kind, bound): Words,
    state: &mut [u64],
) -> Fault {
    let (row, row_length) = (state.as_mut_ptr(), state.len());
    let (start, length) = (buffer.as_mut_ptr(), buffer.len());
    // SAFETY: each start and length are those of a slice lent for the call, and they do not overlap.
    unsafe {
        c::modelardb_macaque_v_reopen(
            start, length, used, count, k, mode, opening, kind, bound, row, row_length,
        )
    }
}

/// `state` becomes that of the writer behind the whole values in the first `used` bytes, `limit` of them at most,
/// and what follows them in their last byte becomes zeros.
pub fn macaque_v_rescue(
    buffer: &mut [u8],
    used: usize,
    limit: usize,
    (mode, opening): Words,
    (kind, bound): Words,
    state: &mut [u64],
) -> Fault {
    let (row, row_length) = (state.as_mut_ptr(), state.len());
    let (start, length) = (buffer.as_mut_ptr(), buffer.len());
    // SAFETY: each start and length are those of a slice lent for the call, and they do not overlap.
    unsafe {
        c::modelardb_macaque_v_rescue(
            start, length, used, limit, mode, opening, kind, bound, row, row_length,
        )
    }
}

/// The first `count` places of `out` become the stream's values.
pub fn macaque_v_grid(
    bytes: &[u8],
    count: usize,
    (mode, opening): Words,
    out: &mut [u32],
) -> Fault {
    let (places, room) = (out.as_mut_ptr(), out.len());
    let (start, length) = (bytes.as_ptr(), bytes.len());
    // SAFETY: each start and length are those of a slice lent for the call, and they do not overlap.
    unsafe { c::modelardb_macaque_v_grid(start, length, count, mode, opening, places, room) }
}

/// `out[0]` becomes the bits of the sum of the stream's values.
pub fn macaque_v_sum(bytes: &[u8], count: usize, (mode, opening): Words, out: &mut [u32]) -> Fault {
    let (places, room) = (out.as_mut_ptr(), out.len());
    let (start, length) = (bytes.as_ptr(), bytes.len());
    // SAFETY: each start and length are those of a slice lent for the call, and they do not overlap.
    unsafe { c::modelardb_macaque_v_sum(start, length, count, mode, opening, places, room) }
}

/// Values as their bits, in place.
pub fn as_bits(values: &[f32]) -> &[u32] {
    // SAFETY: f32 and u32 have one size and alignment, and any 32 bits are a u32.
    unsafe { std::slice::from_raw_parts(values.as_ptr().cast(), values.len()) }
}

/// Values as their bits, in place.
pub fn as_bits_mut(values: &mut [f32]) -> &mut [u32] {
    // SAFETY: f32 and u32 have one size and alignment, and any 32 bits are either.
    unsafe { std::slice::from_raw_parts_mut(values.as_mut_ptr().cast(), values.len()) }
}
