//! What segments are made of, and memory for their outputs.

use crate::context::Context;
use crate::face;
use crate::lent::{STALE, STALE_WORD};
use modelardb_rattle::ffi::{Pair, SEGMENT_WORDS, Words};
use oracle::paper::models::ErrorBound;
use oracle::paper::types::SWING_ID;
use std::fmt::{Display, Formatter, Result};

/// The three outputs of a written segment: parameter bytes, residual bytes and the row.
pub type Outputs = (Vec<u8>, Vec<u8>, Vec<u64>);

/// What a segment is made of: its model's number, first and last value, the residuals and their bound.
pub struct Source {
    pub model: u32,
    pub ends: Pair,
    pub bound: Words,
    pub residuals: Vec<u32>,
}

impl Source {
    pub fn new((model, ends): (u32, Pair), bound: ErrorBound, residuals: Vec<u32>) -> Self {
        Self {
            model,
            ends,
            bound: face::bound_words(bound),
            residuals,
        }
    }

    /// Of any model, bound and values, and so many residuals.
    pub fn any(context: &mut Context, count: usize) -> Self {
        let inputs = &mut context.inputs;
        let model = (inputs.below(2) as u32, (inputs.value(), inputs.value()));
        let residuals = inputs.values(count);
        Self::new(model, inputs.bound_for(&residuals), residuals)
    }

    /// Memory for each output: room for any such segment, and places to spare.
    pub fn outputs(&self) -> Outputs {
        (
            vec![STALE; 8 + 3],
            vec![STALE; 6 * self.residuals.len() + 1 + 3],
            vec![STALE_WORD; SEGMENT_WORDS + 1],
        )
    }

    /// Timestamps for the residuals and some for the model: at least one, and two for a line.
    pub fn times(&self, context: &mut Context) -> Vec<i64> {
        let least = if self.model == SWING_ID { 2 } else { 1 };
        let owned = least + context.inputs.below(6) as usize;
        context.inputs.times(owned + self.residuals.len())
    }
}

impl Display for Source {
    fn fmt(&self, f: &mut Formatter) -> Result {
        let (model, ends, bound) = (self.model, self.ends, self.bound);
        write!(
            f,
            "model {model} {ends:08X?} {bound:X?} {:08X?}",
            self.residuals
        )
    }
}
