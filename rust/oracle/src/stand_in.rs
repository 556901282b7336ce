//! Stand-ins for what the Rust's text takes from other packages, and document 01's minimum and
//! maximum for `filled`.

use std::cell::Cell;
use std::cmp::Ordering;

/// The left one, unless it is NaN or the right is strictly less.
pub fn minimum<T: PartialOrd>(left: T, right: T) -> T {
    match (left.partial_cmp(&left), right.partial_cmp(&left)) {
        (None, _) | (_, Some(Ordering::Less)) => right,
        _ => left,
    }
}

/// The left one, unless it is NaN or the right is strictly greater.
pub fn maximum<T: PartialOrd>(left: T, right: T) -> T {
    match (left.partial_cmp(&left), right.partial_cmp(&left)) {
        (None, _) | (_, Some(Ordering::Greater)) => right,
        _ => left,
    }
}

/// A list that is built, or has been.
#[derive(Default)]
pub struct List<T>(Vec<T>);

impl<T: Copy> List<T> {
    pub fn new() -> Self {
        Self(vec![])
    }

    pub fn of(values: Vec<T>) -> Self {
        Self(values)
    }

    pub fn append_value(&mut self, value: T) {
        self.0.push(value);
    }

    pub fn len(&self) -> usize {
        self.0.len()
    }

    pub fn values_slice(&self) -> &[T] {
        &self.0
    }

    pub fn values(&self) -> &[T] {
        &self.0
    }

    pub fn into_values(self) -> Vec<T> {
        self.0
    }

    pub fn value(&self, index: usize) -> T {
        self.0[index]
    }

    pub fn finish(self) -> Self {
        self
    }
}

thread_local! {
    /// M, which the text takes from a constant and document 01 from the caller.
    static METADATA_SIZE: Cell<u32> = const { Cell::new(1) };
}

/// Sets M for the calls that follow.
pub fn set_metadata_size(m: u32) {
    METADATA_SIZE.set(m);
}

pub mod modelardb_types {
    pub mod schemas {
        /// The metadata size that was set last.
        pub struct MetadataSize;

        pub const COMPRESSED_METADATA_SIZE_IN_BYTES: MetadataSize = MetadataSize;

        impl MetadataSize {
            pub fn to_owned(&self) -> u32 {
                crate::stand_in::METADATA_SIZE.get()
            }
        }
    }

    pub mod types {
        use crate::stand_in::List;

        pub use crate::paper::models::ErrorBound;

        pub type Timestamp = i64;
        pub type TimestampBuilder = List<i64>;
        pub type TimestampArray = List<i64>;
        pub type Value = f32;
        pub type ValueBuilder = List<f32>;
        pub type ValueArray = List<f32>;
    }
}

pub mod arrow {
    pub mod array {
        /// The text brings it in for a builder's length.
        pub trait ArrayBuilder {}
    }

    pub mod error {
        pub type ArrowError = std::fmt::Error;
    }
}

/// A segment as the text hands it to its batch.
pub struct Segment {
    pub min_value: f32,
    pub max_value: f32,
    pub values: Vec<u8>,
    pub residuals: Vec<u8>,
}

/// Keeps the last segment in the place of a batch.
#[derive(Default)]
pub struct CompressedSegmentBatchBuilder {
    pub segment: Option<Segment>,
}

impl CompressedSegmentBatchBuilder {
    #[allow(clippy::too_many_arguments)]
    pub fn append_compressed_segment(
        &mut self,
        _model_type_id: i8,
        _start_time: i64,
        _end_time: i64,
        _timestamps: &[u8],
        min_value: f32,
        max_value: f32,
        values: &[u8],
        residuals: &[u8],
        _error: f32,
    ) {
        self.segment = Some(Segment {
            min_value,
            max_value,
            values: values.to_vec(),
            residuals: residuals.to_vec(),
        });
    }
}
