//! The calls of the choice between the two models.

use super::{PMC_MEAN_WORDS, SWING_WORDS, Words};
use crate::Fault;

mod c {
    use crate::Fault;

    unsafe extern "C" {
        pub unsafe fn modelardb_model_builder_new(
            kind: u32,
            bound: u32,
            state: *mut u64,
            state_len: usize,
        ) -> Fault;
        pub unsafe fn modelardb_model_builder_try_to_update_models(
            state: *mut u64,
            state_len: usize,
            timestamp: i64,
            value: u32,
        ) -> Fault;
        pub unsafe fn modelardb_model_builder_finish(
            state: *const u64,
            state_len: usize,
            m: usize,
            out: *mut u64,
            out_len: usize,
        ) -> Fault;
        pub unsafe fn modelardb_choose_model(
            timestamps: *const i64,
            timestamps_len: usize,
            values: *const u32,
            values_len: usize,
            kind: u32,
            bound: u32,
            m: usize,
            out: *mut u64,
            out_len: usize,
        ) -> Fault;
    }
}

/// How many words a builder's state has: that of PMC-Mean and then that of Swing, where the last word
/// of each is 1 while the model stands for all values so far, and 0 once it has failed.
pub const MODEL_BUILDER_WORDS: usize = PMC_MEAN_WORDS + SWING_WORDS;

/// How many words a chosen model has: 0 for PMC-Mean or 1 for Swing; the length; the bits of the first
/// and of the last value; the bits of the bytes for each value.
pub const SELECTED_MODEL_WORDS: usize = 5;

/// The first twenty words of `state` become a fresh builder's.
pub fn model_builder_new((kind, bound): Words, state: &mut [u64]) -> Fault {
    // SAFETY: start and length are those of a slice lent for the call.
    unsafe { c::modelardb_model_builder_new(kind, bound, state.as_mut_ptr(), state.len()) }
}

/// `state` becomes the builder after the point.
pub fn model_builder_try_to_update_models(state: &mut [u64], timestamp: i64, value: u32) -> Fault {
    let (start, length) = (state.as_mut_ptr(), state.len());
    // SAFETY: start and length are those of a slice lent for the call.
    unsafe { c::modelardb_model_builder_try_to_update_models(start, length, timestamp, value) }
}

/// The first five words of `out` become the chosen model.
pub fn model_builder_finish(state: &[u64], m: usize, out: &mut [u64]) -> Fault {
    let (start, length) = (out.as_mut_ptr(), out.len());
    // SAFETY: each start and length are those of a slice lent for the call, and they do not overlap.
    unsafe { c::modelardb_model_builder_finish(state.as_ptr(), state.len(), m, start, length) }
}

/// The first five words of `out` become the model chosen for the points.
pub fn choose_model(
    timestamps: &[i64],
    values: &[u32],
    (kind, bound): Words,
    m: usize,
    out: &mut [u64],
) -> Fault {
    let (start, length) = (out.as_mut_ptr(), out.len());
    // SAFETY: each start and length are those of a slice lent for the call, and no two overlap.
    unsafe {
        c::modelardb_choose_model(
            timestamps.as_ptr(),
            timestamps.len(),
            values.as_ptr(),
            values.len(),
            kind,
            bound,
            m,
            start,
            length,
        )
    }
}
