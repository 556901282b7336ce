//! A run of points.

use oracle::paper::models::ErrorBound;
use std::fmt::{Display, Formatter, Result};

/// A time and a value's bits.
pub type Point = (i64, u32);

/// A list of points, the bound and the metadata's size.
pub struct Run {
    pub times: Vec<i64>,
    pub values: Vec<u32>,
    pub bound: ErrorBound,
    pub m: usize,
}

impl Run {
    /// The points at which each step is tried.
    pub fn points(&self) -> impl Iterator<Item = Point> {
        self.times.iter().copied().zip(self.values.iter().copied())
    }
}

impl Display for Run {
    fn fmt(&self, f: &mut Formatter) -> Result {
        let (bound, times, values) = (self.bound, &self.times, &self.values);
        write!(f, "{bound:?}, M {}, {times:?} {values:08X?}", self.m)
    }
}
