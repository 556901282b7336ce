//! The choice of a model and its parameter bytes (types.rs).

use super::models::{ErrorBound, maximum_bits, minimum_bits};
use super::numbers::canonical;
use super::pmc_mean::PMCMean;
use super::rules::{self, Rules};
use super::swing::Swing;
use super::{
    Answer, MOST_VALUES, judge_count, judge_metadata, judge_times, refusal, refuse_if,
    time_in_limits,
};

/// "A segment's model is 0 for PMC or 1 for Swing."
pub const PMC_MEAN_ID: u32 = 0;
pub const SWING_ID: u32 = 1;

/// A chosen model: its id, the number of values it stands for, its first and last value (PMC: the
/// one value twice) and its cost.
#[derive(Clone, Copy, Debug, PartialEq)]
pub struct Model {
    pub id: u32,
    pub length: usize,
    pub first_value: u32,
    pub last_value: u32,
    pub bytes_per_value: u32,
}

/// PMC and Swing fitted to the same points, each until its first failure.
#[derive(Clone, Copy, Debug)]
pub struct ModelBuilder {
    pub pmc_mean: PMCMean,
    pub pmc_mean_could_fit_all: bool,
    pub swing: Swing,
    pub swing_could_fit_all: bool,
}

impl ModelBuilder {
    /// A fresh builder. Refusals: 1.
    pub fn new(error_bound: ErrorBound) -> Answer<Self> {
        Ok(Self {
            pmc_mean: PMCMean::new(error_bound)?,
            pmc_mean_could_fit_all: true,
            swing: Swing::new(error_bound)?,
            swing_could_fit_all: true,
        })
    }

    /// Whether a model still fits, and the builder after the point. Refusals: 1 2 3 10.
    pub fn try_to_update_models(self, timestamp: i64, value: u32) -> Answer<(bool, Self)> {
        self.judge_step(timestamp)?;
        let mut next = self;
        if self.pmc_mean_could_fit_all {
            (next.pmc_mean_could_fit_all, next.pmc_mean) = self.pmc_mean.step(value);
        }
        if self.swing_could_fit_all {
            (next.swing_could_fit_all, next.swing) = self.swing.step(timestamp, value);
        }
        let fits = next.pmc_mean_could_fit_all || next.swing_could_fit_all;
        Ok((fits, next))
    }

    /// "After a model's first failure it is not tried again, and its state, length and time cause no
    /// refusal of a step; the given timestamp's own limits are still judged (10)."
    fn judge_step(self, timestamp: i64) -> Answer<()> {
        let pmc_mean = Some(self.pmc_mean).filter(|_| self.pmc_mean_could_fit_all);
        let swing = Some(self.swing).filter(|_| self.swing_could_fit_all);
        pmc_mean.map_or(Ok(()), |model| model.error_bound.judge())?;
        swing.map_or(Ok(()), |model| model.error_bound.judge())?;
        let usable =
            pmc_mean.is_none_or(PMCMean::may_be_used) && swing.is_none_or(Swing::may_be_used);
        refuse_if(!usable, refusal::STATE)?;
        let full = pmc_mean.is_some_and(|model| model.length == MOST_VALUES)
            || swing.is_some_and(|model| model.length == MOST_VALUES);
        refuse_if(full, refusal::LIMIT)?;
        let follows =
            time_in_limits(timestamp) && swing.is_none_or(|model| model.time_follows(timestamp));
        refuse_if(!follows, refusal::TIMES)
    }

    /// The choice, by [`swing_wins`]. "Added: where Swing wins with a finite first and a non-finite last
    /// value (both as f32), PMC's model is taken." Refusals: 1 2 3 11.
    pub fn finish(self, m: u32) -> Answer<Model> {
        self.pmc_mean.error_bound.judge()?;
        self.swing.error_bound.judge()?;
        let usable = self.pmc_mean.may_be_used() && self.swing.may_be_used();
        refuse_if(!usable, refusal::STATE)?;
        judge_metadata(m)?;
        let empty = self.pmc_mean.length == 0 || self.swing.length == 0;
        refuse_if(empty, refusal::NO_MODEL)?;

        let pmc_mean = self.pmc_mean_model(m)?;
        let swing = self.swing_model(m)?;
        let wins = swing_wins(m, pmc_mean.length, swing.length);
        let runs_off = f32::from_bits(swing.first_value).is_finite()
            && !f32::from_bits(swing.last_value).is_finite();
        Ok(if wins && !runs_off { swing } else { pmc_mean })
    }

    fn pmc_mean_model(self, m: u32) -> Answer<Model> {
        let value = self.pmc_mean.model()?;
        Ok(Model {
            id: PMC_MEAN_ID,
            length: self.pmc_mean.length,
            first_value: value,
            last_value: value,
            bytes_per_value: self.pmc_mean.bytes_per_value(m)?,
        })
    }

    fn swing_model(self, m: u32) -> Answer<Model> {
        let (first_value, last_value) = self.swing.model()?;
        Ok(Model {
            id: SWING_ID,
            length: self.swing.length,
            first_value,
            last_value,
            bytes_per_value: self.swing.bytes_per_value(m)?,
        })
    }

    /// The builder as a row of words, every NaN the same.
    pub fn row(self) -> Vec<u64> {
        let mut row = self.pmc_mean.row().to_vec();
        row.push(u64::from(self.pmc_mean_could_fit_all));
        row.extend(self.swing.row());
        row.push(u64::from(self.swing_could_fit_all));
        row
    }
}

/// Whether Swing wins, by M and how many values each model stands for.
pub fn swing_wins(m: u32, pmc_mean: usize, swing: usize) -> bool {
    match rules::in_force() {
        Rules::First => wins_by_costs(m, pmc_mean, swing),
        Rules::Today => wins_by_products(m, pmc_mean, swing),
    }
}

/// First: "M / PMC length against (M + 1) / Swing length, in f32; the smaller wins and PMC wins a tie."
pub fn wins_by_costs(m: u32, pmc_mean: usize, swing: usize) -> bool {
    (m as f32 + 1.0) / (swing as f32) < m as f32 / pmc_mean as f32
}

/// Today: "Swing wins exactly if (M + 1) × PMC length is less than M × Swing length. An equal product goes
/// to PMC" (02, W8). No product is above 2^32.
pub fn wins_by_products(m: u32, pmc_mean: usize, swing: usize) -> bool {
    let (m, pmc_mean, swing) = (u64::from(m), pmc_mean as u64, swing as u64);
    (m + 1) * pmc_mean < m * swing
}

/// The rule as one call: a fresh builder stepped until both models have failed or the list ends,
/// then the choice. The values are what is counted; timestamps that are not as many are 12. Refusals:
/// 1 3 12 10 11.
pub fn choose_model(
    timestamps: &[i64],
    values: &[u32],
    error_bound: ErrorBound,
    m: u32,
) -> Answer<Model> {
    let mut builder = ModelBuilder::new(error_bound)?;
    judge_count(values.len())?;
    judge_metadata(m)?;
    refuse_if(timestamps.len() != values.len(), refusal::COUNTS)?;
    judge_times(timestamps)?;
    for (&timestamp, &value) in timestamps.iter().zip(values) {
        let (fits, next) = builder.try_to_update_models(timestamp, value)?;
        builder = next;
        if !fits {
            break;
        }
    }
    builder.finish(m)
}

/// A minimum and a maximum; of no values both are 7FC00000.
#[derive(Clone, Copy, Debug, PartialEq)]
pub struct Extremes {
    pub min_value: u32,
    pub max_value: u32,
}

impl Extremes {
    /// Those of a model with these two ends, first on the left.
    pub fn of_model(first: u32, last: u32) -> Self {
        Self {
            min_value: minimum_bits(first, last),
            max_value: maximum_bits(first, last),
        }
    }

    /// The finished segment's: the model on the left, the residuals on the right.
    pub fn with(self, residuals: Extremes) -> Self {
        Self {
            min_value: minimum_bits(self.min_value, residuals.min_value),
            max_value: maximum_bits(self.max_value, residuals.max_value),
        }
    }
}

/// Whether the left is less than the right, as floats.
fn less(left: u32, right: u32) -> bool {
    f32::from_bits(left) < f32::from_bits(right)
}

/// The Rust's form for PMC: nothing where the minimum still is the value, one byte where the maximum
/// still is, else the value.
fn rusts_form_for_pmc_mean(value: u32, residuals: Extremes) -> Vec<u8> {
    if !less(residuals.min_value, value) {
        vec![]
    } else if f32::from_bits(value) >= f32::from_bits(residuals.max_value) {
        vec![1]
    } else {
        value.to_le_bytes().to_vec()
    }
}

/// The Rust's form for Swing: both values, or a flag and the one that residuals overwrote, or the
/// order alone.
fn rusts_form_for_swing(first: u32, last: u32, residuals: Extremes) -> Vec<u8> {
    let rises = less(first, last);
    let model = Extremes::of_model(first, last);
    let below = less(residuals.min_value, model.min_value);
    let above = less(model.max_value, residuals.max_value);
    let (min, max) = (model.min_value.to_le_bytes(), model.max_value.to_le_bytes());
    match (below, above, rises) {
        (true, true, true) => [min, max].concat(),
        (true, true, false) => [max, min].concat(),
        (true, false, true) => [&[0], &min[..]].concat(),
        (true, false, false) => [&[1], &min[..]].concat(),
        (false, true, true) => [&[2], &max[..]].concat(),
        (false, true, false) => [&[3], &max[..]].concat(),
        (false, false, true) => vec![],
        (false, false, false) => vec![0],
    }
}

/// PMC's parameter bytes. "Added: if the Rust's form, read against the finished minimum and maximum,
/// doesn't give the model's parameters bit for bit (each NaN taken as 7FC00000 first), the 4 or 8
/// byte form is written."
pub fn pmc_mean_bytes(value: u32, residuals: Extremes) -> Vec<u8> {
    let value = canonical(value);
    let form = rusts_form_for_pmc_mean(value, residuals);
    let finished = Extremes::of_model(value, value).with(residuals);
    if decode_values_for_pmc_mean(finished, &form) == Ok(value) {
        form
    } else {
        value.to_le_bytes().to_vec()
    }
}

/// Swing's parameter bytes, by the same rule.
pub fn swing_bytes(first: u32, last: u32, residuals: Extremes) -> Vec<u8> {
    let (first, last) = (canonical(first), canonical(last));
    let form = rusts_form_for_swing(first, last, residuals);
    let finished = Extremes::of_model(first, last).with(residuals);
    if decode_values_for_swing(finished, &form) == Ok((first, last)) {
        form
    } else {
        [first.to_le_bytes(), last.to_le_bytes()].concat()
    }
}

/// Copies an answer into lent memory and gives its length, or 4.
pub(super) fn hand_out(answer: &[u8], out: &mut [u8]) -> Answer<usize> {
    refuse_if(out.len() < answer.len(), refusal::OUTPUT)?;
    out[..answer.len()].copy_from_slice(answer);
    Ok(answer.len())
}

/// The number of parameter bytes that were written. Refusals: 4.
pub fn encode_values_for_pmc_mean(
    value: u32,
    residuals: Extremes,
    out: &mut [u8],
) -> Answer<usize> {
    hand_out(&pmc_mean_bytes(value, residuals), out)
}

/// The number of parameter bytes that were written. Refusals: 4.
pub fn encode_values_for_swing(
    first: u32,
    last: u32,
    residuals: Extremes,
    out: &mut [u8],
) -> Answer<usize> {
    hand_out(&swing_bytes(first, last, residuals), out)
}

/// The value of four little-endian bytes.
fn value_of(bytes: &[u8]) -> u32 {
    u32::from_le_bytes(bytes.try_into().expect("four bytes"))
}

/// "PMC: length 0 reads the segment minimum, 1 the maximum, 4 the value." Refusals: 9.
pub fn decode_values_for_pmc_mean(segment: Extremes, bytes: &[u8]) -> Answer<u32> {
    let value = match bytes.len() {
        0 => segment.min_value,
        1 => segment.max_value,
        4 => value_of(bytes),
        _ => return Err(refusal::FORM),
    };
    Ok(canonical(value))
}

/// "Swing: 0 (min, max); 1 (max, min); 5 by flag: 0 (value, max), 1 (max, value), 2 (min, value),
/// 3 (value, min); 8 both." Refusals: 9.
pub fn decode_values_for_swing(segment: Extremes, bytes: &[u8]) -> Answer<(u32, u32)> {
    let (min, max) = (segment.min_value, segment.max_value);
    let (first, last) = match (bytes.len(), bytes.first()) {
        (0, _) => (min, max),
        (1, _) => (max, min),
        (5, Some(0)) => (value_of(&bytes[1..]), max),
        (5, Some(1)) => (max, value_of(&bytes[1..])),
        (5, Some(2)) => (min, value_of(&bytes[1..])),
        (5, Some(3)) => (value_of(&bytes[1..]), min),
        (8, _) => (value_of(&bytes[..4]), value_of(&bytes[4..])),
        _ => return Err(refusal::FORM),
    };
    Ok((canonical(first), canonical(last)))
}
