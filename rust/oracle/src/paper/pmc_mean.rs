//! PMC-Mean (pmc_mean.rs): a model that stands for its values by their average.

use super::models::{ErrorBound, maximum, minimum, within};
use super::numbers::{bits_of_f32, bits_of_f64, canonical, rounded, wide};
use super::{Answer, MOST_VALUES, judge_count, judge_metadata, refusal, refuse_if};

/// The state of a fit. Computed NaNs in it count as equal.
#[derive(Clone, Copy, Debug)]
pub struct PMCMean {
    pub error_bound: ErrorBound,
    pub min_value: f32,
    pub max_value: f32,
    pub sum_of_values: f64,
    pub length: usize,
}

impl PMCMean {
    /// A fresh state. Refusals: 1.
    pub fn new(error_bound: ErrorBound) -> Answer<Self> {
        error_bound.judge()?;
        Ok(Self {
            error_bound,
            min_value: f32::NAN,
            max_value: f32::NAN,
            sum_of_values: 0.0,
            length: 0,
        })
    }

    /// "A PMC or Swing state may be used if its length is at most 65,536."
    pub fn may_be_used(self) -> bool {
        self.length <= MOST_VALUES
    }

    /// Whether the value fits, and the state after it. Refusals: 1 2 3.
    pub fn fit_value(self, value: u32) -> Answer<(bool, Self)> {
        self.error_bound.judge()?;
        refuse_if(!self.may_be_used(), refusal::STATE)?;
        refuse_if(self.length == MOST_VALUES, refusal::LIMIT)?;
        Ok(self.step(value))
    }

    /// "PMC adds the widened value to an f64 sum, divides by the new length and rounds to f32. The
    /// value fits if the new minimum and maximum are both within the bound of that average, each as
    /// the real value. A failed fit changes nothing."
    pub(super) fn step(self, value: u32) -> (bool, Self) {
        let next = Self {
            min_value: minimum(self.min_value, f32::from_bits(value)),
            max_value: maximum(self.max_value, f32::from_bits(value)),
            sum_of_values: self.sum_of_values + wide(value),
            length: self.length + 1,
            ..self
        };
        let average = f32::from_bits(next.average());
        let fits = within(self.error_bound, next.min_value, average)
            && within(self.error_bound, next.max_value, average);
        (fits, if fits { next } else { self })
    }

    fn average(self) -> u32 {
        rounded(self.sum_of_values / self.length as f64)
    }

    /// M / length in f32. Refusals: 1 2 3 11.
    pub fn bytes_per_value(self, m: u32) -> Answer<u32> {
        self.error_bound.judge()?;
        refuse_if(!self.may_be_used(), refusal::STATE)?;
        judge_metadata(m)?;
        refuse_if(self.length == 0, refusal::NO_MODEL)?;
        Ok(bits_of_f32(m as f32 / self.length as f32))
    }

    /// The average. Refusals: 1 2 11.
    pub fn model(self) -> Answer<u32> {
        self.error_bound.judge()?;
        refuse_if(!self.may_be_used(), refusal::STATE)?;
        refuse_if(self.length == 0, refusal::NO_MODEL)?;
        Ok(self.average())
    }

    /// The state as a row of words, every NaN the same.
    pub fn row(self) -> [u64; 6] {
        let [kind, bound] = self.error_bound.row();
        [
            kind,
            bound,
            u64::from(bits_of_f32(self.min_value)),
            u64::from(bits_of_f32(self.max_value)),
            bits_of_f64(self.sum_of_values),
            self.length as u64,
        ]
    }
}

/// "PMC's sum is length × value in f32." Refusals: 3.
pub fn sum(length: usize, value: u32) -> Answer<u32> {
    judge_count(length)?;
    Ok(bits_of_f32(length as f32 * f32::from_bits(value)))
}

/// "PMC's grid takes a count." Refusals: 3 4.
pub fn grid(value: u32, count: usize, out: &mut [u32]) -> Answer<()> {
    judge_count(count)?;
    refuse_if(out.len() < count, refusal::OUTPUT)?;
    out[..count].fill(canonical(value));
    Ok(())
}
