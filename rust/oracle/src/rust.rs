//! The calls of the Rust's text as the comparison makes them, on the paper's own types. A call that
//! may fault there answers `None` where it does. Computed NaNs are answered as 7FC00000.

use crate::paper::macaque_v::Opening;
use crate::paper::models::ErrorBound;
use crate::paper::pmc_mean::PMCMean;
use crate::paper::segments::Segment;
use crate::paper::swing::{Line, Swing};
use crate::paper::types::{Extremes, Model, ModelBuilder};

/// A call of the text's writer.
pub type Call<'a> = (Opening, &'a [u32]);

/// A line's first and last value.
pub type Ends = (u32, u32);

/// A stream as the text's writer finishes it.
#[derive(Clone, Debug, PartialEq)]
pub struct Stream {
    pub bytes: Vec<u8>,
    pub extremes: Extremes,
}

/// A segment as the text writes it.
#[derive(Clone, Debug, PartialEq)]
pub struct SegmentBytes {
    pub extremes: Extremes,
    pub values: Vec<u8>,
    pub residuals: Vec<u8>,
}

/// One build of the text, `published` or `filled`.
pub struct Calls {
    pub name: &'static str,
    pub within: fn(ErrorBound, u32, u32) -> bool,
    pub deviation: fn(ErrorBound, u64) -> u64,
    pub pmc_step: fn(PMCMean, u32) -> (bool, PMCMean),
    pub pmc_cost: fn(PMCMean, u32) -> u32,
    pub pmc_model: fn(PMCMean) -> u32,
    pub pmc_sum: fn(usize, u32) -> u32,
    pub pmc_grid: fn(u32, usize) -> Vec<u32>,
    pub swing_step: fn(Swing, i64, u32) -> (bool, Swing),
    pub swing_cost: fn(Swing, u32) -> u32,
    pub swing_model: fn(Swing) -> (u32, u32),
    /// By average where the timestamps are regular, else over the list; the line's ends are its own.
    pub swing_sum: fn(Line, &[i64]) -> u32,
    pub swing_grid: fn(Line, &[i64]) -> Vec<u32>,
    pub builder_step: fn(ModelBuilder, i64, u32) -> (bool, ModelBuilder),
    pub choose: fn(ModelBuilder, u32) -> Chosen,
    /// One call or more on a fresh writer, each with its own opening.
    pub write: fn(ErrorBound, &[Call]) -> Stream,
    pub read: fn(&[u8], usize, Opening) -> Option<Vec<u32>>,
    pub sum: fn(&[u8], usize, Opening) -> Option<u32>,
    pub encode_pmc: fn(u32, Extremes) -> Vec<u8>,
    pub encode_swing: fn(u32, u32, Extremes) -> Vec<u8>,
    pub decode_pmc: fn(Extremes, &[u8]) -> Option<u32>,
    pub decode_swing: fn(Extremes, &[u8]) -> Option<Ends>,
    pub segment_write: fn(Model, ErrorBound, &[u32]) -> SegmentBytes,
    pub segment_grid: fn(Segment) -> Option<Vec<u32>>,
    pub segment_sum: fn(Segment) -> Option<u32>,
    pub direct: Direct,
}

/// The text's own entry points for a stream with its first value in full, for timing.
pub struct Direct {
    pub write: fn(ErrorBound, &[f32]) -> Vec<u8>,
    /// A value for each timestamp, behind those that the list holds.
    pub read: fn(&[u8], &[i64], &mut Vec<f32>),
    pub sum: fn(&[u8], usize) -> f32,
}

impl Calls {
    /// Whether document 01's bodies stand in this build.
    pub fn is_filled(&self) -> bool {
        self.name == "filled"
    }
}

/// What the text's choice holds: the model with its extremes and order byte.
#[derive(Clone, Debug, PartialEq)]
pub struct Chosen {
    pub id: u32,
    pub length: usize,
    pub last_value: u32,
    pub bytes_per_value: u32,
    pub extremes: Extremes,
    pub values: Vec<u8>,
}
