//! Swing: a model that stands for its values by a line through the first one. [`grid`] draws a line's
//! values, and [`sum_by_average`] and [`sum_over`] add them up.

mod line;

use crate::ffi::{self, SWING_WORDS};
use crate::shown::F64;
use crate::{ErrorBound, Refusal};
use std::fmt::{self, Debug, Formatter};

pub use line::{
    Line, grid, grid_bits, sum_by_average, sum_by_average_bits, sum_over, sum_over_bits,
};

/// The place of the word that says whether a step's point fitted.
const FITS: usize = SWING_WORDS - 1;

/// The points fitted so far: the first one, the highest and the lowest line from it that pass within
/// the bound of all others, and the sums of the slope with the least error.
///
/// ```
/// use modelardb_rattle::{ErrorBound, Refusal, Swing};
///
/// let mut room = Swing::new(ErrorBound::Absolute(0.5))?;
/// for (minute, value) in [(0, 20.0), (5, 21.0), (10, 22.0)] {
///     assert!(room.fit_data_point(minute, value)?);
/// }
/// assert_eq!(room.model(), Ok((20.0, 22.0)));
/// // No line from 20.0 that rises to 22.0 is back at 20.0 within the bound: nothing changes.
/// let before = room.clone();
/// assert!(!room.fit_data_point(15, 20.0)?);
/// assert_eq!(room, before);
/// // Thirteen bytes, one more than the metadata, for three values.
/// assert_eq!(room.bytes_per_value(12), Ok(13.0 / 3.0));
/// # Ok::<(), Refusal>(())
/// ```
#[derive(Clone, PartialEq, Eq)]
pub struct Swing {
    /// The state as it crosses the C face: see [`SWING_WORDS`]. Its last word is 0 between calls, so
    /// that a failed fit leaves the state as it was.
    row: [u64; SWING_WORDS],
}

impl Swing {
    /// The state before any point.
    ///
    /// # Errors
    ///
    /// [`Refusal::BoundNotAllowed`].
    pub fn new(error_bound: ErrorBound) -> Result<Self, Refusal> {
        let mut row = [0; SWING_WORDS];
        Refusal::judge(ffi::swing_new(error_bound.words(), &mut row))?;
        Ok(Self { row })
    }

    /// The state that the last words of a builder's row stand for.
    pub(crate) fn in_row(words: &[u64]) -> Self {
        let mut row = [0; SWING_WORDS];
        row[..FITS].copy_from_slice(&words[..FITS]);
        Self { row }
    }

    /// Whether the point fits; where it does, it is one of the model's points from now on. A point
    /// that does not fit changes nothing, and neither does a refusal.
    ///
    /// # Errors
    ///
    /// [`Refusal::OverLimit`] for a model of 65,536 points; [`Refusal::TimesNotAllowed`] for a timestamp
    /// outside -2^52 to 2^52, or not behind the last one.
    ///
    /// ```
    /// use modelardb_rattle::{ErrorBound, Refusal, Swing};
    ///
    /// let mut room = Swing::new(ErrorBound::Lossless)?;
    /// room.fit_data_point(5, 20.0)?;
    /// assert_eq!(room.fit_data_point(5, 20.0), Err(Refusal::TimesNotAllowed));
    /// assert_eq!(room.len(), 1);
    /// # Ok::<(), Refusal>(())
    /// ```
    pub fn fit_data_point(&mut self, timestamp: i64, value: f32) -> Result<bool, Refusal> {
        self.fit_data_point_bits(timestamp, value.to_bits())
    }

    /// [`Swing::fit_data_point`] on the value's bits.
    ///
    /// # Errors
    ///
    /// Those of [`Swing::fit_data_point`].
    pub fn fit_data_point_bits(&mut self, timestamp: i64, value: u32) -> Result<bool, Refusal> {
        let fault = ffi::swing_fit_data_point(&mut self.row, timestamp, value);
        Refusal::judge(fault)?;
        Ok(std::mem::take(&mut self.row[FITS]) == 1)
    }

    /// How many bytes each value costs where the metadata takes `metadata_size`: a byte more than that, by
    /// the number of values.
    ///
    /// # Errors
    ///
    /// [`Refusal::OverLimit`] for a size of 0 or above 65,535; [`Refusal::NoModel`] while there is no point.
    pub fn bytes_per_value(&self, metadata_size: usize) -> Result<f32, Refusal> {
        let mut out = [0];
        let fault = ffi::swing_bytes_per_value(&self.row, metadata_size, &mut out);
        Refusal::judge(fault)?;
        Ok(f32::from_bits(out[0]))
    }

    /// The line's first and last value.
    ///
    /// # Errors
    ///
    /// [`Refusal::NoModel`] while there is no point.
    ///
    /// ```
    /// use modelardb_rattle::{ErrorBound, Refusal, Swing};
    ///
    /// let mut room = Swing::new(ErrorBound::Absolute(1.0))?;
    /// assert_eq!(room.model(), Err(Refusal::NoModel));
    /// // One point makes no line: its last value is NaN.
    /// room.fit_data_point(0, 0.0)?;
    /// assert!(room.model()?.1.is_nan());
    /// // Two make the highest that is allowed.
    /// room.fit_data_point(10, 5.0)?;
    /// assert_eq!(room.model(), Ok((0.0, 6.0)));
    /// # Ok::<(), Refusal>(())
    /// ```
    pub fn model(&self) -> Result<(f32, f32), Refusal> {
        let (first, last) = self.model_bits()?;
        Ok((f32::from_bits(first), f32::from_bits(last)))
    }

    /// The bits of [`Swing::model`]; a NaN is answered as 7FC00000.
    ///
    /// # Errors
    ///
    /// Those of [`Swing::model`].
    pub fn model_bits(&self) -> Result<(u32, u32), Refusal> {
        let mut out = [0; 2];
        Refusal::judge(ffi::swing_model(&self.row, &mut out))?;
        Ok((out[0], out[1]))
    }

    /// How far the line may pass from a value.
    pub fn error_bound(&self) -> ErrorBound {
        ErrorBound::in_row(&self.row)
    }

    /// The first point's time, 0 before any.
    pub fn start_time(&self) -> i64 {
        self.row[2] as i64
    }

    /// The last point's time, 0 before any.
    pub fn end_time(&self) -> i64 {
        self.row[3] as i64
    }

    /// The slopes of the highest and of the lowest line that are allowed, NaN before two points.
    pub fn slopes(&self) -> (f64, f64) {
        (f64::from_bits(self.row[5]), f64::from_bits(self.row[7]))
    }

    /// The sums of the slope with the least error, which is the first by the second.
    pub fn error_sums(&self) -> (f64, f64) {
        (f64::from_bits(self.row[9]), f64::from_bits(self.row[10]))
    }

    /// How many points fitted.
    pub fn len(&self) -> usize {
        self.row[11] as usize
    }

    /// Whether there is no point yet.
    pub fn is_empty(&self) -> bool {
        self.len() == 0
    }
}

/// The state by its fields, each value beside its bits.
impl Debug for Swing {
    fn fmt(&self, f: &mut Formatter) -> fmt::Result {
        f.debug_struct("Swing")
            .field("error_bound", &self.error_bound())
            .field("start_time", &self.start_time())
            .field("end_time", &self.end_time())
            .field("first_value", &F64(self.row[4]))
            .field("upper_bound_slope", &F64(self.row[5]))
            .field("upper_bound_intercept", &F64(self.row[6]))
            .field("lower_bound_slope", &F64(self.row[7]))
            .field("lower_bound_intercept", &F64(self.row[8]))
            .field("slope_with_minimum_mse_numerator", &F64(self.row[9]))
            .field("slope_with_minimum_mse_denominator", &F64(self.row[10]))
            .field("length", &self.len())
            .finish()
    }
}
