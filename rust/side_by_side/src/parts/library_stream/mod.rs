//! MacaqueV as compiled from the proved crates, called through its C face, beside the paper's program
//! and, where it is at hand, the Rust's text.

pub mod both;
mod causes;
mod damaged;
mod large;
mod lists;
mod marked;
mod older;
pub mod reading;
pub mod repeats;
mod resumed;
pub mod states;
mod sums;

pub use causes::causes;
pub use damaged::damaged;
pub use large::large;
pub use lists::{lists, short_lists};
pub use marked::marked;
pub use older::older;
pub use reading::reading;
pub use repeats::repeats;
pub use resumed::resumed;
pub use states::states;
pub use sums::sums;

use crate::context::Context;
use crate::face;
use crate::lent::{STALE, STALE_WORD};
use both::At;
use modelardb_rattle as library;
use modelardb_rattle::ffi::{STATE_WORDS, Words};
use oracle::paper::macaque_v::Opening;
use oracle::paper::models::ErrorBound;

/// How many bytes any such values fit in: none takes more than 45 bits.
pub fn room_for(count: usize) -> usize {
    (45 * count).div_ceil(8)
}

/// The words of a row behind those of its bound, as the safe type says them.
pub fn said(writer: &library::MacaqueV) -> [u64; STATE_WORDS - 2] {
    [
        writer.min_value_bits().into(),
        writer.max_value_bits().into(),
        writer.last_value_bits().into(),
        writer.last_leading_zero_bits().into(),
        writer.last_trailing_zero_bits().into(),
        writer.with_first().into(),
        writer.place() as u64,
        writer.length() as u64,
        writer.sum_bits().into(),
    ]
}

/// A stream as the library and the paper both wrote it in one go.
pub struct Stream {
    pub bound: Words,
    pub opening: Words,
    pub values: Vec<u32>,
    /// The writer's row before any value, and after them all.
    pub fresh: Vec<u64>,
    pub row: Vec<u64>,
    pub bytes: Vec<u8>,
}

impl Stream {
    pub fn new(context: &mut Context, bound: ErrorBound, opening: Opening, values: &[u32]) -> Self {
        let bound = face::bound_words(bound);
        let opening = face::opening_words(opening);
        let (_, fresh) = both::opened(context, bound, opening, &[STALE_WORD; STATE_WORDS]);
        let buffer = vec![STALE; room_for(values.len()) + 3];
        let (_, row, mut bytes) = both::written(context, &fresh, values, &buffer);
        bytes.truncate(row[8].div_ceil(8) as usize);
        Self {
            bound,
            opening,
            values: values.to_vec(),
            fresh,
            row,
            bytes,
        }
    }

    /// A stream of so many values, of any bound and opening.
    pub fn any(context: &mut Context, count: usize) -> Self {
        let values = context.inputs.values(count);
        let (bound, opening) = (context.inputs.bound_for(&values), context.inputs.opening());
        Self::new(context, bound, opening, &values)
    }

    pub fn count(&self) -> usize {
        self.values.len()
    }

    /// Reopened behind the first k values.
    pub fn at(&self, k: usize) -> At {
        At {
            used: self.bytes.len(),
            count: self.count(),
            k,
            opening: self.opening,
            bound: self.bound,
        }
    }
}
