//! A line between two points: its values at given times, and their sums.

use crate::Refusal;
use crate::ffi::{self, Ends};

/// A line by its ends. A grid or a sum needs the end after the start, and finite values unless both are
/// equal or both NaN. The listed times may lie outside the two ends.
#[derive(Clone, Copy, Debug, PartialEq)]
pub struct Line {
    /// When it starts.
    pub start_time: i64,
    /// When it ends.
    pub end_time: i64,
    /// Its value at the start.
    pub first_value: f32,
    /// Its value at the end.
    pub last_value: f32,
}

impl Line {
    /// The times, and the values' bits.
    fn ends(self) -> Ends {
        let values = (self.first_value.to_bits(), self.last_value.to_bits());
        ((self.start_time, self.end_time), values)
    }
}

/// The sum of `count` values of the line, by the average of its ends.
///
/// # Errors
///
/// [`Refusal::OverLimit`] for a count above 65,536; [`Refusal::TimesNotAllowed`] for an end that is not
/// after its start, or a time outside -2^52 to 2^52; [`Refusal::NoModel`] for values that differ while at
/// least one is not finite.
///
/// ```
/// use modelardb_rattle::{Line, swing};
///
/// let line = Line { start_time: 0, end_time: 20, first_value: 20.0, last_value: 22.0 };
/// assert_eq!(swing::sum_by_average(line, 3), Ok(63.0));
/// ```
pub fn sum_by_average(line: Line, count: usize) -> Result<f32, Refusal> {
    sum_by_average_bits(line, count).map(f32::from_bits)
}

/// The bits of [`sum_by_average`]; a NaN is answered as 7FC00000.
///
/// # Errors
///
/// Those of [`sum_by_average`].
pub fn sum_by_average_bits(line: Line, count: usize) -> Result<u32, Refusal> {
    let mut out = [0];
    Refusal::judge(ffi::swing_sum_by_average(line.ends(), count, &mut out))?;
    Ok(out[0])
}

/// The sum of the line's values at the timestamps.
///
/// # Errors
///
/// Those of [`sum_by_average`], and the same of the timestamps: [`Refusal::OverLimit`] for more than
/// 65,536, [`Refusal::TimesNotAllowed`] where they do not increase strictly within the limits.
///
/// ```
/// use modelardb_rattle::{Line, Refusal, swing};
///
/// let line = Line { start_time: 0, end_time: 20, first_value: 20.0, last_value: 22.0 };
/// assert_eq!(swing::sum_over(line, &[0, 5, 20]), Ok(62.5));
/// assert_eq!(swing::sum_over(line, &[5, 5]), Err(Refusal::TimesNotAllowed));
///
/// let endless = Line { last_value: f32::INFINITY, ..line };
/// assert_eq!(swing::sum_over(endless, &[0, 20]), Err(Refusal::NoModel));
/// ```
pub fn sum_over(line: Line, timestamps: &[i64]) -> Result<f32, Refusal> {
    sum_over_bits(line, timestamps).map(f32::from_bits)
}

/// The bits of [`sum_over`]; a NaN is answered as 7FC00000.
///
/// # Errors
///
/// Those of [`sum_over`].
pub fn sum_over_bits(line: Line, timestamps: &[i64]) -> Result<u32, Refusal> {
    let mut out = [0];
    Refusal::judge(ffi::swing_sum_over(line.ends(), timestamps, &mut out))?;
    Ok(out[0])
}

/// Draws the line's values at the timestamps into the first places of `out`. A refusal leaves `out` as
/// it was. Nothing is promised of how close they are to values that the line was fitted to: see
/// [`ErrorBound`](crate::ErrorBound).
///
/// # Errors
///
/// Those of [`sum_over`], and [`Refusal::OutputTooShort`] behind [`Refusal::OverLimit`].
///
/// ```
/// use modelardb_rattle::{Line, Refusal, swing};
///
/// let line = Line { start_time: 0, end_time: 20, first_value: 20.0, last_value: 22.0 };
/// let mut out = [0.0; 4];
/// swing::grid(line, &[0, 5, 20], &mut out)?;
/// assert_eq!(out, [20.0, 20.5, 22.0, 0.0]);
/// # Ok::<(), Refusal>(())
/// ```
pub fn grid(line: Line, timestamps: &[i64], out: &mut [f32]) -> Result<(), Refusal> {
    grid_bits(line, timestamps, ffi::as_bits_mut(out))
}

/// [`grid`] with the values drawn as bits; a NaN is drawn as 7FC00000.
///
/// # Errors
///
/// Those of [`grid`].
pub fn grid_bits(line: Line, timestamps: &[i64], out: &mut [u32]) -> Result<(), Refusal> {
    Refusal::judge(ffi::swing_grid(line.ends(), timestamps, out))
}
