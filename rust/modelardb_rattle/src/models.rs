//! Error bounds and the tests against them.

use crate::Refusal;
use crate::ffi::{self, Words};

/// How far an approximation may be from the value that it stands for.
///
/// What that says of values that come back depends on what keeps them. A stream
/// ([`MacaqueV`](crate::MacaqueV), and so the residuals of a [`Segment`](crate::Segment)) keeps for each
/// value one that is within the bound of it by [`is_value_within_error_bound`], and lossless the value
/// bit for bit. A model's own values are computed: an average, or the points of a line. The bound
/// decides which values a model takes, and nothing is promised of what it draws for them, lossless
/// neither: -0 comes back as +0, and a line's values may differ in their last bits from those that it
/// took.
#[derive(Clone, Copy, Debug, PartialEq)]
pub enum ErrorBound {
    /// Not at all: equal as numbers, or both NaN.
    Lossless,
    /// By at most this much: finite and above 0.
    Absolute(f32),
    /// By at most this percentage of the value: above 0 and at most 100.
    Relative(f32),
}

impl ErrorBound {
    /// The bound's case as a number, and its bits.
    pub(crate) fn words(self) -> Words {
        match self {
            ErrorBound::Lossless => (0, 0),
            ErrorBound::Absolute(bound) => (1, bound.to_bits()),
            ErrorBound::Relative(bound) => (2, bound.to_bits()),
        }
    }

    /// The bound that the first two words of a state stand for.
    pub(crate) fn in_row(row: &[u64]) -> Self {
        let bound = f32::from_bits(row[1] as u32);
        match row[0] {
            0 => ErrorBound::Lossless,
            1 => ErrorBound::Absolute(bound),
            _ => ErrorBound::Relative(bound),
        }
    }
}

/// Whether `approximate_value` may stand for `real_value`: where the two are equal or both NaN, and else as the bound says
/// in f64, each number widened first. Absolute: |real − approximate| ≤ bound. Relative: |(real − approximate) / real| × 100
/// ≤ bound, with each operation rounded, in this order.
///
/// # Errors
///
/// [`Refusal::BoundNotAllowed`].
///
/// ```
/// use modelardb_rattle::{ErrorBound, is_value_within_error_bound};
///
/// let one_percent = ErrorBound::Relative(1.0);
/// assert_eq!(is_value_within_error_bound(one_percent, 200.0, 201.0), Ok(true));
/// assert_eq!(is_value_within_error_bound(one_percent, 200.0, 203.0), Ok(false));
/// // At the bound f64's own rounding decides: 1 / 100 × 100 is 1, and 7 / 100 × 100 is a little more than 7.
/// assert_eq!(is_value_within_error_bound(one_percent, 100.0, 99.0), Ok(true));
/// assert_eq!(is_value_within_error_bound(ErrorBound::Relative(7.0), 100.0, 93.0), Ok(false));
/// // A NaN may stand for a NaN, whatever the bound.
/// assert_eq!(is_value_within_error_bound(ErrorBound::Lossless, f32::NAN, f32::NAN), Ok(true));
/// ```
pub fn is_value_within_error_bound(
    error_bound: ErrorBound,
    real_value: f32,
    approximate_value: f32,
) -> Result<bool, Refusal> {
    let (real, approximate) = (real_value.to_bits(), approximate_value.to_bits());
    is_value_within_error_bound_bits(error_bound, real, approximate)
}

/// [`is_value_within_error_bound`] on the values' bits.
///
/// # Errors
///
/// [`Refusal::BoundNotAllowed`].
///
/// ```
/// use modelardb_rattle::{ErrorBound, is_value_within_error_bound_bits};
///
/// let answer = is_value_within_error_bound_bits(ErrorBound::Absolute(1.0), 0x3F80_0000, 0x4000_0000);
/// assert_eq!(answer, Ok(true));
/// ```
pub fn is_value_within_error_bound_bits(
    error_bound: ErrorBound,
    real_value: u32,
    approximate_value: u32,
) -> Result<bool, Refusal> {
    let (words, mut out) = (error_bound.words(), [0]);
    let fault = ffi::is_value_within_error_bound(words, real_value, approximate_value, &mut out);
    Refusal::judge(fault)?;
    Ok(out[0] != 0)
}

/// How far a line may pass from `value`, in f64.
///
/// # Errors
///
/// [`Refusal::BoundNotAllowed`].
///
/// ```
/// use modelardb_rattle::{ErrorBound, Refusal, maximum_allowed_deviation};
///
/// assert_eq!(maximum_allowed_deviation(ErrorBound::Lossless, 8.0), Ok(0.0));
/// assert_eq!(maximum_allowed_deviation(ErrorBound::Relative(50.0), -8.0), Ok(4.0));
/// let refused = maximum_allowed_deviation(ErrorBound::Absolute(0.0), 8.0);
/// assert_eq!(refused, Err(Refusal::BoundNotAllowed));
/// ```
pub fn maximum_allowed_deviation(error_bound: ErrorBound, value: f64) -> Result<f64, Refusal> {
    maximum_allowed_deviation_bits(error_bound, value.to_bits()).map(f64::from_bits)
}

/// [`maximum_allowed_deviation`] on the value's bits; a NaN is answered as 7FF8000000000000.
///
/// # Errors
///
/// [`Refusal::BoundNotAllowed`].
pub fn maximum_allowed_deviation_bits(error_bound: ErrorBound, value: u64) -> Result<u64, Refusal> {
    let mut out = [0];
    let fault = ffi::maximum_allowed_deviation(error_bound.words(), value, &mut out);
    Refusal::judge(fault)?;
    Ok(out[0])
}

#[cfg(test)]
mod tests {
    use super::*;

    #[test]
    fn words_that_stand_for_no_bound_are_refused() {
        let mut out = [7];
        let fault = ffi::is_value_within_error_bound((3, 0), 0, 0, &mut out);
        assert_eq!((fault, out), (1.into(), [7]));
    }

    #[test]
    fn a_row_too_short_is_refused_after_the_bound() {
        let within = |bound| ffi::is_value_within_error_bound(bound, 0, 0, &mut []);
        let deviation = |bound| ffi::maximum_allowed_deviation(bound, 0, &mut []);
        assert_eq!((within((0, 0)), within((1, 0))), (4.into(), 1.into()));
        assert_eq!((deviation((0, 0)), deviation((3, 0))), (4.into(), 1.into()));
    }
}
