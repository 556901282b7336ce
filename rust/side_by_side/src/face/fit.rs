//! PMC-Mean and Swing.

use super::{allowed_bound, judge_words, told};
use modelardb_rattle::Fault;
use modelardb_rattle::ffi::{Ends, PMC_MEAN_WORDS, SWING_WORDS, Words};
use oracle::paper::models::ErrorBound::{self, Absolute, Lossless, Relative};
use oracle::paper::numbers::canonical;
use oracle::paper::pmc_mean::{self, PMCMean};
use oracle::paper::refusal::{BOUND, COUNTS, LIMIT, OUTPUT, STATE};
use oracle::paper::swing::{self, Line, Swing};
use oracle::paper::{Answer, Fault as Refused, MOST_VALUES, Read};

/// A length that no state may have, for a row that stands for none.
pub const NO_LENGTH: usize = MOST_VALUES + 1;

pub fn pmc_mean_new(bound: Words, row: &mut [u64]) -> Fault {
    told(|| {
        let state = allowed_bound(bound).and_then(PMCMean::new);
        let state = in_room(state, PMC_MEAN_WORDS, row.len())?;
        put_pmc_mean(row, state, false);
        Ok(())
    })
}

pub fn pmc_mean_fit_value(row: &mut [u64], value: u32) -> Fault {
    told(|| {
        judge_words(row, PMC_MEAN_WORDS, &[0])?;
        let (fits, state) = pmc_mean_in(row).fit_value(value)?;
        put_pmc_mean(row, state, fits);
        Ok(())
    })
}

pub fn pmc_mean_bytes_per_value(row: &[u64], m: usize, out: &mut [u32]) -> Fault {
    ask(row, PMC_MEAN_WORDS, out, || {
        Ok([pmc_mean_in(row).bytes_per_value(metadata(m))?])
    })
}

pub fn pmc_mean_model(row: &[u64], out: &mut [u32]) -> Fault {
    ask(row, PMC_MEAN_WORDS, out, || Ok([pmc_mean_in(row).model()?]))
}

pub fn pmc_mean_sum(count: usize, value: u32, out: &mut [u32]) -> Fault {
    ask(&[], 0, out, || Ok([pmc_mean::sum(count, value)?]))
}

pub fn pmc_mean_grid(value: u32, count: usize, out: &mut [u32]) -> Fault {
    told(|| Ok(pmc_mean::grid(value, count, out)?))
}

pub fn swing_new(bound: Words, row: &mut [u64]) -> Fault {
    told(|| {
        let state = allowed_bound(bound).and_then(Swing::new);
        let state = in_room(state, SWING_WORDS, row.len())?;
        put_swing(row, state, false);
        Ok(())
    })
}

pub fn swing_fit_data_point(row: &mut [u64], timestamp: i64, value: u32) -> Fault {
    told(|| {
        judge_words(row, SWING_WORDS, &[0])?;
        let (fits, state) = swing_in(row).fit_data_point(timestamp, value)?;
        put_swing(row, state, fits);
        Ok(())
    })
}

pub fn swing_bytes_per_value(row: &[u64], m: usize, out: &mut [u32]) -> Fault {
    ask(row, SWING_WORDS, out, || {
        Ok([swing_in(row).bytes_per_value(metadata(m))?])
    })
}

pub fn swing_model(row: &[u64], out: &mut [u32]) -> Fault {
    ask(row, SWING_WORDS, out, || {
        swing_in(row).model().map(|(first, last)| [first, last])
    })
}

pub fn swing_sum_by_average(ends: Ends, count: usize, out: &mut [u32]) -> Fault {
    ask(&[], 0, out, || {
        Ok([swing::sum_by_average(line(ends), count)?])
    })
}

pub fn swing_sum_over(ends: Ends, timestamps: &[i64], out: &mut [u32]) -> Fault {
    ask(&[], 0, out, || {
        Ok([swing::sum_over(line(ends), timestamps)?])
    })
}

pub fn swing_grid(ends: Ends, timestamps: &[i64], out: &mut [u32]) -> Fault {
    told(|| Ok(swing::grid(line(ends), timestamps, out)?))
}

pub fn line(((start_time, end_time), (first_value, last_value)): Ends) -> Line {
    Line {
        start_time,
        end_time,
        first_value,
        last_value,
    }
}

/// A question about a row of `words` words, answered at the front of `out`.
fn ask<const N: usize>(
    row: &[u64],
    words: usize,
    out: &mut [u32],
    call: impl FnOnce() -> Answer<[u32; N]>,
) -> Fault {
    told(|| {
        judge_words(row, words, &[0])?;
        let answer = in_room(call(), N, out.len())?;
        out[..N].copy_from_slice(&answer);
        Ok(())
    })
}

/// A row too short for the answer is 4, behind 1, 2, 3 and 12 and before the others.
pub fn in_room<A>(answer: Result<A, impl Into<Refused>>, words: usize, room: usize) -> Read<A> {
    match answer.map_err(Into::into) {
        Err(refused) if matches!(refused.number, BOUND | STATE | LIMIT | COUNTS) => Err(refused),
        _ if room < words => Err(OUTPUT.into()),
        answer => answer,
    }
}

/// A metadata size as the paper's program takes it: what does not fit there is over its limit.
pub fn metadata(m: usize) -> u32 {
    u32::try_from(m).unwrap_or(u32::MAX)
}

/// The state that a row stands for. "Words that no call of 01 can be handed" make one that it refuses.
pub fn pmc_mean_in(row: &[u64]) -> PMCMean {
    let fit = row[2].max(row[3]) <= u32::MAX.into();
    PMCMean {
        error_bound: bound_in(row[0], row[1]),
        min_value: f32::from_bits(row[2] as u32),
        max_value: f32::from_bits(row[3] as u32),
        sum_of_values: f64::from_bits(row[4]),
        length: if fit { row[5] as usize } else { NO_LENGTH },
    }
}

pub fn swing_in(row: &[u64]) -> Swing {
    Swing {
        error_bound: bound_in(row[0], row[1]),
        start_time: row[2] as i64,
        end_time: row[3] as i64,
        first_value: f64::from_bits(row[4]),
        upper_bound_slope: f64::from_bits(row[5]),
        upper_bound_intercept: f64::from_bits(row[6]),
        lower_bound_slope: f64::from_bits(row[7]),
        lower_bound_intercept: f64::from_bits(row[8]),
        numerator: f64::from_bits(row[9]),
        denominator: f64::from_bits(row[10]),
        length: row[11] as usize,
    }
}

/// A bound's two words; those that stand for none make one that is not allowed.
pub fn bound_in(kind: u64, bits: u64) -> ErrorBound {
    let value = |bits| f32::from_bits(canonical(bits));
    match (kind, u32::try_from(bits)) {
        (0, Ok(_)) => Lossless,
        (1, Ok(bits)) => Absolute(value(bits)),
        (2, Ok(bits)) => Relative(value(bits)),
        _ => Absolute(f32::NAN),
    }
}

/// The state's words to the front of the row, and behind them whether the value fitted.
pub fn put_pmc_mean(row: &mut [u64], state: PMCMean, fits: bool) {
    row[..PMC_MEAN_WORDS - 1].copy_from_slice(&state.row());
    row[PMC_MEAN_WORDS - 1] = fits.into();
}

pub fn put_swing(row: &mut [u64], state: Swing, fits: bool) {
    row[..SWING_WORDS - 1].copy_from_slice(&state.row());
    row[SWING_WORDS - 1] = fits.into();
}
