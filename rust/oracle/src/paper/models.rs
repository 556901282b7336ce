//! What the models share (mod.rs): bounds, the tests against them, minimum and maximum.

use super::numbers::{bits_of_f64, wide};
use super::rules::{self, Rules};
use super::{Answer, refusal, refuse_if};
use std::ops::{Div, Mul, Neg, Sub};

/// "A bound is Lossless, Absolute with its f32, or Relative with its f32."
#[derive(Clone, Copy, Debug, PartialEq)]
pub enum ErrorBound {
    Lossless,
    Absolute(f32),
    Relative(f32),
}

impl ErrorBound {
    /// "Absolute must be finite and above 0; Relative above 0 and at most 100."
    pub fn is_allowed(self) -> bool {
        match self {
            ErrorBound::Lossless => true,
            ErrorBound::Absolute(bound) => bound.is_finite() && bound > 0.0,
            ErrorBound::Relative(bound) => bound > 0.0 && bound <= 100.0,
        }
    }

    /// Refuses a bound that is not allowed.
    pub fn judge(self) -> Answer<()> {
        refuse_if(!self.is_allowed(), refusal::BOUND)
    }

    /// The case as a number, and the bits that it carries.
    pub fn row(self) -> [u64; 2] {
        match self {
            ErrorBound::Lossless => [0, 0],
            ErrorBound::Absolute(bound) => [1, u64::from(bound.to_bits())],
            ErrorBound::Relative(bound) => [2, u64::from(bound.to_bits())],
        }
    }
}

/// "Equal-or-NaN: equal as floats, or both NaN."
pub fn equal_or_nan(left: f64, right: f64) -> bool {
    left == right || (left.is_nan() && right.is_nan())
}

/// Within, for a bound that is allowed: "equal-or-NaN always is." Otherwise first "all in f32, each operation
/// rounded, in this order"; today the test "shall widen both values and the bound and work in f64, in the same
/// order of operations" (02, W10).
pub fn within(bound: ErrorBound, real: f32, approximate: f32) -> bool {
    let wide = (f64::from(real), f64::from(approximate));
    let is_near = || match rules::in_force() {
        Rules::First => near(bound, real, approximate),
        Rules::Today => near(bound, wide.0, wide.1),
    };
    equal_or_nan(wide.0, wide.1) || is_near()
}

/// "Lossless no; Absolute: |real − approx| ≤ bound; Relative: |(real − approx) / real| × 100 ≤ bound", by the
/// operations of the precision in which the values are handed in.
fn near<T: Precision>(bound: ErrorBound, real: T, approximate: T) -> bool {
    let size = |value: T| if value < T::from(0.0) { -value } else { value };
    match bound {
        ErrorBound::Lossless => false,
        ErrorBound::Absolute(bound) => size(real - approximate) <= T::from(bound),
        ErrorBound::Relative(bound) => {
            size((real - approximate) / real) * T::from(100.0) <= T::from(bound)
        }
    }
}

/// A precision that holds every f32, with the operations of the test.
trait Precision:
    Copy
    + From<f32>
    + PartialOrd
    + Sub<Output = Self>
    + Div<Output = Self>
    + Mul<Output = Self>
    + Neg<Output = Self>
{
}

impl Precision for f32 {}
impl Precision for f64 {}

/// Deviation, for a bound that is allowed: "Lossless 0; Absolute the widened bound; Relative
/// |value × (bound / 100)|", in f64.
pub fn deviation(bound: ErrorBound, value: f64) -> f64 {
    match bound {
        ErrorBound::Lossless => 0.0,
        ErrorBound::Absolute(bound) => wide(bound.to_bits()),
        ErrorBound::Relative(bound) => (value * (wide(bound.to_bits()) / 100.0)).abs(),
    }
}

/// The public call on values: 1.
pub fn is_value_within_error_bound(bound: ErrorBound, real: u32, approximate: u32) -> Answer<bool> {
    bound.judge()?;
    Ok(within(
        bound,
        f32::from_bits(real),
        f32::from_bits(approximate),
    ))
}

/// The public call on the bits of an f64: 1.
pub fn maximum_allowed_deviation(bound: ErrorBound, value: u64) -> Answer<u64> {
    bound.judge()?;
    Ok(bits_of_f64(deviation(bound, f64::from_bits(value))))
}

/// "A NaN on the left gives way to the right; else the right wins only if strictly less."
pub fn minimum<T: PartialOrd>(left: T, right: T) -> T {
    if is_nan(&left) || right < left {
        right
    } else {
        left
    }
}

/// "... (greater)".
pub fn maximum<T: PartialOrd>(left: T, right: T) -> T {
    if is_nan(&left) || right > left {
        right
    } else {
        left
    }
}

/// A NaN is what does not compare with itself.
fn is_nan<T: PartialOrd>(value: &T) -> bool {
    value.partial_cmp(value).is_none()
}

/// [`minimum`] on patterns: the winner keeps its bits.
pub fn minimum_bits(left: u32, right: u32) -> u32 {
    minimum(Pattern(left), Pattern(right)).0
}

/// [`maximum`] on patterns.
pub fn maximum_bits(left: u32, right: u32) -> u32 {
    maximum(Pattern(left), Pattern(right)).0
}

/// A value's bits, compared as the float that they stand for.
struct Pattern(u32);

impl PartialEq for Pattern {
    fn eq(&self, other: &Self) -> bool {
        f32::from_bits(self.0) == f32::from_bits(other.0)
    }
}

impl PartialOrd for Pattern {
    fn partial_cmp(&self, other: &Self) -> Option<std::cmp::Ordering> {
        f32::from_bits(self.0).partial_cmp(&f32::from_bits(other.0))
    }
}
