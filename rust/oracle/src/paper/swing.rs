//! Swing (swing.rs): a model that stands for its values by a line through the first one.

use super::models::{ErrorBound, deviation, equal_or_nan, maximum, minimum};
use super::numbers::{bits_of_f32, bits_of_f64, rounded, wide};
use super::{
    Answer, MOST_VALUES, judge_count, judge_metadata, judge_times, refusal, refuse_if,
    time_in_limits,
};

/// The state of a fit: slopes, intercepts and sums in f64. Computed NaNs in it count as equal.
#[derive(Clone, Copy, Debug)]
pub struct Swing {
    pub error_bound: ErrorBound,
    pub start_time: i64,
    pub end_time: i64,
    pub first_value: f64,
    pub upper_bound_slope: f64,
    pub upper_bound_intercept: f64,
    pub lower_bound_slope: f64,
    pub lower_bound_intercept: f64,
    pub numerator: f64,
    pub denominator: f64,
    pub length: usize,
}

impl Swing {
    /// A fresh state. Refusals: 1.
    pub fn new(error_bound: ErrorBound) -> Answer<Self> {
        error_bound.judge()?;
        Ok(Self {
            error_bound,
            start_time: 0,
            end_time: 0,
            first_value: f64::NAN,
            upper_bound_slope: f64::NAN,
            upper_bound_intercept: f64::NAN,
            lower_bound_slope: f64::NAN,
            lower_bound_intercept: f64::NAN,
            numerator: 0.0,
            denominator: 0.0,
            length: 0,
        })
    }

    /// "... if its length is at most 65,536; a Swing state of length 1 must have equal times, of
    /// length 2 or more a start before its end, both within the time limits; at length 0 any times."
    pub fn may_be_used(self) -> bool {
        let in_limits = time_in_limits(self.start_time) && time_in_limits(self.end_time);
        match self.length {
            0 => true,
            1 => in_limits && self.start_time == self.end_time,
            length => length <= MOST_VALUES && in_limits && self.start_time < self.end_time,
        }
    }

    /// Whether a timestamp keeps the limits and comes after the last one.
    pub(super) fn time_follows(self, timestamp: i64) -> bool {
        time_in_limits(timestamp) && (self.length == 0 || self.end_time < timestamp)
    }

    /// Whether the point fits, and the state after it. Refusals: 1 2 3 10.
    pub fn fit_data_point(self, timestamp: i64, value: u32) -> Answer<(bool, Self)> {
        self.error_bound.judge()?;
        refuse_if(!self.may_be_used(), refusal::STATE)?;
        refuse_if(self.length == MOST_VALUES, refusal::LIMIT)?;
        refuse_if(!self.time_follows(timestamp), refusal::TIMES)?;
        Ok(self.step(timestamp, value))
    }

    /// "It follows swing.rs step for step." The first point is held; a line with an infinity or a
    /// NaN takes equal-or-NaN values only; the first two finite points always fit.
    pub(super) fn step(self, timestamp: i64, value: u32) -> (bool, Self) {
        let value = wide(value);
        let next = match self.length {
            0 => Some(self.first_point(timestamp, value)),
            _ if !self.first_value.is_finite() || !value.is_finite() => {
                self.non_finite_point(timestamp, value)
            }
            1 => Some(self.second_point(timestamp, value)),
            _ => self.later_point(timestamp, value),
        };
        (next.is_some(), next.unwrap_or(self))
    }

    fn first_point(self, timestamp: i64, value: f64) -> Self {
        Self {
            start_time: timestamp,
            end_time: timestamp,
            first_value: value,
            length: 1,
            ..self
        }
    }

    fn non_finite_point(self, timestamp: i64, value: f64) -> Option<Self> {
        equal_or_nan(self.first_value, value).then_some(Self {
            end_time: timestamp,
            upper_bound_slope: value,
            upper_bound_intercept: value,
            lower_bound_slope: value,
            lower_bound_intercept: value,
            length: self.length + 1,
            ..self
        })
    }

    /// "The second is not added to the error sums."
    fn second_point(self, timestamp: i64, value: f64) -> Self {
        let deviation = deviation(self.error_bound, value);
        let next = self.with_upper(timestamp, value + deviation);
        let next = next.with_lower(timestamp, value - deviation);
        Self {
            end_time: timestamp,
            length: 2,
            ..next
        }
    }

    /// A later point fits unless it lies more than the deviation above the upper line or below the
    /// lower one; a line that is more than the deviation away swings to the point.
    fn later_point(self, timestamp: i64, value: f64) -> Option<Self> {
        let deviation = deviation(self.error_bound, value);
        let time = timestamp as f64;
        let upper = self.upper_bound_slope * time + self.upper_bound_intercept;
        let lower = self.lower_bound_slope * time + self.lower_bound_intercept;
        if upper + deviation < value || lower - deviation > value {
            return None;
        }
        let mut next = self;
        if upper - deviation > value {
            next = next.with_upper(timestamp, value + deviation);
        }
        if lower + deviation < value {
            next = next.with_lower(timestamp, value - deviation);
        }
        let (numerator, denominator) = self.error_terms(timestamp, value);
        Some(Self {
            end_time: timestamp,
            numerator: self.numerator + numerator,
            denominator: self.denominator + denominator,
            length: self.length + 1,
            ..next
        })
    }

    fn with_upper(self, timestamp: i64, value: f64) -> Self {
        let (slope, intercept) = line(self.start_time, self.first_value, timestamp, value);
        Self {
            upper_bound_slope: slope,
            upper_bound_intercept: intercept,
            ..self
        }
    }

    fn with_lower(self, timestamp: i64, value: f64) -> Self {
        let (slope, intercept) = line(self.start_time, self.first_value, timestamp, value);
        Self {
            lower_bound_slope: slope,
            lower_bound_intercept: intercept,
            ..self
        }
    }

    /// What a point adds to the error sums; "the square is one product".
    fn error_terms(self, timestamp: i64, value: f64) -> (f64, f64) {
        if equal_or_nan(self.first_value, value) {
            return (0.0, 0.0);
        }
        let duration = (timestamp - self.start_time) as f64;
        ((value - self.first_value) * duration, duration * duration)
    }

    /// (M + 1) / length in f32. Refusals: 1 2 3 11.
    pub fn bytes_per_value(self, m: u32) -> Answer<u32> {
        self.error_bound.judge()?;
        refuse_if(!self.may_be_used(), refusal::STATE)?;
        judge_metadata(m)?;
        refuse_if(self.length == 0, refusal::NO_MODEL)?;
        Ok(bits_of_f32((m as f32 + 1.0) / self.length as f32))
    }

    /// The first and last value. Refusals: 1 2 11.
    pub fn model(self) -> Answer<(u32, u32)> {
        self.error_bound.judge()?;
        refuse_if(!self.may_be_used(), refusal::STATE)?;
        refuse_if(self.length == 0, refusal::NO_MODEL)?;
        Ok(self.ends())
    }

    /// The slope of the error sums, held between the lower and the upper slope, gives the last
    /// value. "A two-point model has slope 0/0 and takes the upper slope."
    fn ends(self) -> (u32, u32) {
        let projected = self.numerator / self.denominator;
        let slope = maximum(
            self.lower_bound_slope,
            minimum(projected, self.upper_bound_slope),
        );
        let last = slope * (self.end_time - self.start_time) as f64 + self.first_value;
        (rounded(self.first_value), rounded(last))
    }

    /// The state as a row of words, every NaN the same.
    pub fn row(self) -> [u64; 12] {
        let [kind, bound] = self.error_bound.row();
        [
            kind,
            bound,
            self.start_time as u64,
            self.end_time as u64,
            bits_of_f64(self.first_value),
            bits_of_f64(self.upper_bound_slope),
            bits_of_f64(self.upper_bound_intercept),
            bits_of_f64(self.lower_bound_slope),
            bits_of_f64(self.lower_bound_intercept),
            bits_of_f64(self.numerator),
            bits_of_f64(self.denominator),
            self.length as u64,
        ]
    }
}

/// Slope and intercept of the line through two points.
fn line(start_time: i64, first_value: f64, end_time: i64, last_value: f64) -> (f64, f64) {
    if equal_or_nan(first_value, last_value) {
        return (0.0, first_value);
    }
    let slope = (last_value - first_value) / (end_time - start_time) as f64;
    (slope, first_value - slope * start_time as f64)
}

/// The line that a grid or a sum draws: its two ends.
#[derive(Clone, Copy, Debug)]
pub struct Line {
    pub start_time: i64,
    pub end_time: i64,
    pub first_value: u32,
    pub last_value: u32,
}

impl Line {
    /// "A Swing grid or sum needs end after start, else 10; the listed times increase strictly, keep
    /// the time limits and may lie outside the two ends." After that 11: "ends are not equal-or-NaN
    /// while at least one is not finite".
    fn judge(self, timestamps: &[i64]) -> Answer<()> {
        judge_times(&[self.start_time, self.end_time])?;
        judge_times(timestamps)?;
        self.judge_ends()
    }

    pub(super) fn judge_ends(self) -> Answer<()> {
        let (first, last) = (wide(self.first_value), wide(self.last_value));
        let finite = first.is_finite() && last.is_finite();
        refuse_if(!equal_or_nan(first, last) && !finite, refusal::NO_MODEL)
    }

    fn slope_and_intercept(self) -> (f64, f64) {
        let (first, last) = (wide(self.first_value), wide(self.last_value));
        line(self.start_time, first, self.end_time, last)
    }

    /// The line's value at a time, in f64.
    fn at(self, timestamp: i64) -> f64 {
        let (slope, intercept) = self.slope_and_intercept();
        slope * timestamp as f64 + intercept
    }
}

/// The sum by average, with a count. Refusals: 3 10 11.
pub fn sum_by_average(line: Line, count: usize) -> Answer<u32> {
    judge_count(count)?;
    line.judge(&[])?;
    let average = (line.at(line.start_time) + line.at(line.end_time)) / 2.0;
    Ok(rounded(average * count as f64))
}

/// The sum over a list of timestamps, added in f64 from the left. Refusals: 3 10 11.
pub fn sum_over(line: Line, timestamps: &[i64]) -> Answer<u32> {
    judge_count(timestamps.len())?;
    line.judge(timestamps)?;
    Ok(rounded(
        timestamps.iter().fold(0.0, |sum, &t| sum + line.at(t)),
    ))
}

/// The line's values at the listed times. Refusals: 3 4 10 11.
pub fn grid(line: Line, timestamps: &[i64], out: &mut [u32]) -> Answer<()> {
    judge_count(timestamps.len())?;
    refuse_if(out.len() < timestamps.len(), refusal::OUTPUT)?;
    line.judge(timestamps)?;
    for (place, &timestamp) in out.iter_mut().zip(timestamps) {
        *place = rounded(line.at(timestamp));
    }
    Ok(())
}
