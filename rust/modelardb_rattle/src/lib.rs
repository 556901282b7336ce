//! ModelarDB's compression core, proved in Rattle, behind safe Rust: the Rust's own names over the
//! proved static library. A call answers its values, or a [`Refusal`] that says what was wrong and, of a
//! stream, where.
//!
//! Values are f32. Where a NaN's payload matters, a call on the value's bits stands beside the call
//! on floats.
//!
//! A state changes in place: what fits or is written is part of it from then on. So writers, readers,
//! models and builders are no `Copy`; to keep one as it was, clone it.
//!
//! A [`MacaqueV`] knows the [mean](MacaqueV::mean) of what it has written, without reading it, and
//! [how large a buffer](MacaqueV::most_bytes) any stream fits in that it writes of so many values. It goes on from any
//! value of a stream ([`MacaqueV::reopen`]), and from whatever arrived of one ([`MacaqueV::rescue`]).
//!
//! [`compare::differences`] shows where two streams part. A [`TabledWriter`] keeps a [`PlaceTable`] beside its
//! stream, which reads a range of it without the rest.
//!
//! [`choose_model`] says which model stores a run of values, [`PMCMean`] or [`Swing`]; a [`Segment`]
//! holds that model and the values behind it, which [`MacaqueV`] writes as a stream.
//!
//! ```
//! use modelardb_rattle::{ErrorBound, Refusal, is_value_within_error_bound};
//!
//! let bound = ErrorBound::Absolute(0.5);
//! assert_eq!(is_value_within_error_bound(bound, 20.0, 20.5), Ok(true));
//! assert_eq!(is_value_within_error_bound(bound, 20.0, 20.6), Ok(false));
//!
//! let refused = is_value_within_error_bound(ErrorBound::Relative(101.0), 1.0, 1.0);
//! assert_eq!(refused, Err(Refusal::BoundNotAllowed));
//! ```

#![warn(missing_docs)]

pub mod compare;
pub mod ffi;
pub mod macaque_v;
pub mod models;
pub mod numbers;
pub mod parameters;
pub mod place_table;
pub mod pmc_mean;
mod refusal;
pub mod segments;
mod shown;
pub mod swing;
pub mod types;

pub use macaque_v::{MacaqueV, Opening, Reader};
pub use models::{
    ErrorBound, is_value_within_error_bound, is_value_within_error_bound_bits,
    maximum_allowed_deviation, maximum_allowed_deviation_bits,
};
pub use numbers::{narrow, narrow_bits, widen, widen_bits};
pub use place_table::{PlaceTable, TabledWriter};
pub use pmc_mean::PMCMean;
pub use refusal::{Fault, Refusal};
pub use segments::{Model, Segment};
pub use swing::{Line, Swing};
pub use types::{ModelBuilder, SelectedModel, choose_model, choose_model_bits};

/// The Rust that docs/BROKEN-UPLOADS.md shows, run as a test.
#[cfg(doctest)]
#[doc = include_str!("../../../docs/BROKEN-UPLOADS.md")]
pub struct BrokenUploads;
