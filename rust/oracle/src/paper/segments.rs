//! Segments: a model's parameter bytes, and residuals as a stream that opens on its last value.

use super::macaque_v::{self, MacaqueV, Opening, read_all};
use super::models::ErrorBound;
use super::numbers::{bits_of_f32, canonical};
use super::swing::{self, Line};
use super::types::{
    Extremes, PMC_MEAN_ID, SWING_ID, decode_values_for_pmc_mean, decode_values_for_swing,
    pmc_mean_bytes, swing_bytes,
};
use super::{Answer, MOST_RESIDUALS, Read, judge_count, judge_times, pmc_mean, refusal, refuse_if};

/// What writing a segment answers: its minimum and maximum, and how many bytes each output took.
#[derive(Clone, Copy, Debug, PartialEq)]
pub struct Written {
    pub extremes: Extremes,
    pub values_length: usize,
    pub residuals_length: usize,
}

/// Writes a segment's parameter bytes and residual bytes. Refusals: 1 3 4.
pub fn write(
    model: u32,
    (first, last): (u32, u32),
    error_bound: ErrorBound,
    residuals: &[u32],
    values_out: &mut [u8],
    residuals_out: &mut [u8],
) -> Answer<Written> {
    error_bound.judge()?;
    let too_many = model > SWING_ID || residuals.len() > MOST_RESIDUALS;
    refuse_if(too_many, refusal::LIMIT)?;
    let (first, last) = match model {
        PMC_MEAN_ID => (canonical(first), canonical(first)),
        _ => (canonical(first), canonical(last)),
    };
    let (stream, of_residuals) = residual_bytes(last, error_bound, residuals)?;
    let parameters = match model {
        PMC_MEAN_ID => pmc_mean_bytes(first, of_residuals),
        _ => swing_bytes(first, last, of_residuals),
    };
    let fits = parameters.len() <= values_out.len() && stream.len() <= residuals_out.len();
    refuse_if(!fits, refusal::OUTPUT)?;
    values_out[..parameters.len()].copy_from_slice(&parameters);
    residuals_out[..stream.len()].copy_from_slice(&stream);
    Ok(Written {
        extremes: Extremes::of_model(first, last).with(of_residuals),
        values_length: parameters.len(),
        residuals_length: stream.len(),
    })
}

/// "A segment's residuals are a MacaqueV stream without first value, opened on the model's last
/// value, then one count byte. No residuals, no byte."
fn residual_bytes(
    last: u32,
    error_bound: ErrorBound,
    residuals: &[u32],
) -> Answer<(Vec<u8>, Extremes)> {
    let mut buffer = vec![0; 6 * residuals.len()];
    let writer = MacaqueV::new(error_bound, Opening::On(last))?;
    let writer = writer.compress_values(residuals, &mut buffer)?;
    buffer.truncate(writer.place.div_ceil(8));
    if !residuals.is_empty() {
        buffer.push(residuals.len() as u8);
    }
    let extremes = Extremes {
        min_value: writer.min_value,
        max_value: writer.max_value,
    };
    Ok((buffer, extremes))
}

/// A segment as it is read, with all its timestamps.
#[derive(Clone, Copy, Debug)]
pub struct Segment<'a> {
    pub model: u32,
    pub timestamps: &'a [i64],
    pub extremes: Extremes,
    pub values: &'a [u8],
    pub residuals: &'a [u8],
}

/// A segment's model, read and judged: its ends, and the timestamps that it owns.
struct Judged<'a> {
    first_value: u32,
    last_value: u32,
    owned: &'a [i64],
}

impl<'a> Segment<'a> {
    /// The count byte, the last one; none is 0 residuals.
    fn residual_count(&self) -> usize {
        self.residuals.last().map_or(0, |&count| count.into())
    }

    /// The residual stream, without its count byte.
    fn stream(&self) -> &'a [u8] {
        &self.residuals[..self.residuals.len().saturating_sub(1)]
    }

    /// Judges 3 12 4 10 9 11, in this order; `room` is the lent output's, where there is one.
    fn judge(&self, room: Option<usize>) -> Answer<Judged<'a>> {
        let (total, count) = (self.timestamps.len(), self.residual_count());
        refuse_if(self.model > SWING_ID, refusal::LIMIT)?;
        judge_count(total)?;
        refuse_if(total <= count, refusal::COUNTS)?;
        refuse_if(room.is_some_and(|room| room < total), refusal::OUTPUT)?;
        // "It owns the first timestamps, as many as the total less the residual count."
        let owned = &self.timestamps[..total - count];
        judge_times(self.timestamps)?;
        // "A Swing grid or sum needs end after start, else 10."
        refuse_if(self.model == SWING_ID && owned.len() == 1, refusal::TIMES)?;
        let (first_value, last_value) = self.ends()?;
        refuse_if(!self.residuals.is_empty() && count == 0, refusal::FORM)?;
        let judged = Judged {
            first_value,
            last_value,
            owned,
        };
        if self.model == SWING_ID {
            judged.line().judge_ends()?;
        }
        Ok(judged)
    }

    fn ends(&self) -> Answer<(u32, u32)> {
        if self.model == PMC_MEAN_ID {
            let value = decode_values_for_pmc_mean(self.extremes, self.values)?;
            Ok((value, value))
        } else {
            decode_values_for_swing(self.extremes, self.values)
        }
    }

    /// All values, the model's and then the residuals', into lent memory. "The reader opens on the
    /// decoded last value." Refusals: 3 12 4 10 9 11, then 5 to 8: "in a segment, places count from the
    /// residual stream's first byte".
    pub fn grid(&self, out: &mut [u32]) -> Read<()> {
        let judged = self.judge(Some(out.len()))?;
        let opening = Opening::On(judged.last_value);
        let rows = read_all(self.stream(), self.residual_count(), opening)?;
        let (drawn, rest) = out.split_at_mut(judged.owned.len());
        if self.model == PMC_MEAN_ID {
            pmc_mean::grid(judged.first_value, judged.owned.len(), drawn)?;
        } else {
            swing::grid(judged.line(), judged.owned, drawn)?;
        }
        for (place, row) in rest.iter_mut().zip(rows) {
            *place = row.value;
        }
        Ok(())
    }

    /// The sum by average with the count of owned timestamps. Refusals: 3 12 10 9 11, then 5 to 8.
    pub fn sum_by_average(&self) -> Read<u32> {
        self.sum(|judged| swing::sum_by_average(judged.line(), judged.owned.len()))
    }

    /// The sum over the owned timestamps. Refusals: 3 12 10 9 11, then 5 to 8.
    pub fn sum_over_times(&self) -> Read<u32> {
        self.sum(|judged| swing::sum_over(judged.line(), judged.owned))
    }

    /// The model's sum plus the residuals', in f32; without residuals the model's alone.
    fn sum(&self, swing_sum: fn(&Judged) -> Answer<u32>) -> Read<u32> {
        let judged = self.judge(None)?;
        let opening = Opening::On(judged.last_value);
        let of_residuals = macaque_v::sum(self.stream(), self.residual_count(), opening)?;
        let of_model = match self.model {
            PMC_MEAN_ID => pmc_mean::sum(judged.owned.len(), judged.first_value)?,
            _ => swing_sum(&judged)?,
        };
        if self.residuals.is_empty() {
            return Ok(of_model);
        }
        let sum = f32::from_bits(of_model) + f32::from_bits(of_residuals);
        Ok(bits_of_f32(sum))
    }
}

impl Judged<'_> {
    /// "Its line runs from the first to the last of these."
    fn line(&self) -> Line {
        Line {
            start_time: self.owned[0],
            end_time: self.owned[self.owned.len() - 1],
            first_value: self.first_value,
            last_value: self.last_value,
        }
    }
}
