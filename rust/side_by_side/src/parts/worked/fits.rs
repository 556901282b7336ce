//! Fitting, the choice, and lines.

use super::example::{Example, Said, left, said};
use crate::inputs::{NAN, ONE};
use modelardb_rattle::ErrorBound::{self, Absolute, Lossless};
use modelardb_rattle::ffi::{
    self, MODEL_BUILDER_WORDS, PMC_MEAN_WORDS, SELECTED_MODEL_WORDS, SWING_WORDS,
};
use modelardb_rattle::{Line, ModelBuilder, PMCMean, Swing, choose_model, swing};
use oracle::paper::{MOST_VALUES, TIME_LIMIT};

pub const EXAMPLES: &[Example] = &[
    (
        "PMC of -0 answers +0",
        || average(&[-0.0]),
        Ok(&[0x0000_0000]),
    ),
    (
        "PMC-Mean: value number 65,537 is refused, 3",
        || average(&[1.0; MOST_VALUES + 1]),
        Err((3, 0, 0)),
    ),
    (
        "Swing, Absolute(1): 0 at 0, 5 at 10: last value 6",
        || line_of(Absolute(1.0), &[(0, 0.0), (10, 5.0)]),
        Ok(&[0x0000_0000, 0x40C0_0000]),
    ),
    (
        "a one-point model answers a NaN last value",
        || line_of(Lossless, &[(0, 1.0)]),
        Ok(&[0x3F80_0000, 0x7FC0_0000]),
    ),
    (
        "Swing: a second point at the first one's time: 10",
        || line_of(Lossless, &[(0, 1.0), (0, 1.0)]),
        Err((10, 0, 0)),
    ),
    (
        "Swing: a second point at 2^52 + 1: 10",
        || line_of(Lossless, &[(0, 1.0), (TIME_LIMIT + 1, 1.0)]),
        Err((10, 0, 0)),
    ),
    (
        "Swing: 1 at the least i64: 10",
        || line_of(Lossless, &[(i64::MIN, 1.0), (i64::MAX, 2.0)]),
        Err((10, 0, 0)),
    ),
    (
        "a Swing state of length 1 must keep the time limits too: 2",
        || {
            let (mut row, mut out) = ([0; SWING_WORDS], [0; 2]);
            row[2..4].fill(TIME_LIMIT as u64 + 1);
            row[11] = 1;
            left(ffi::swing_model(&row, &mut out), vec![])
        },
        Err((2, 0, 0)),
    ),
    // The choice.
    (
        "choice of -MAX, MAX under Absolute(3e38): PMC, of one value",
        || chosen(&[0, 1], &[f32::MIN, f32::MAX], Absolute(3e38), 1),
        Ok(&[0]),
    ),
    (
        "choice of 20, 21, 22 under Absolute(0.5), M 2: 3 × 2 is 2 × 3, and an equal product goes to PMC",
        || chosen(&[0, 5, 10], &[20.0, 21.0, 22.0], Absolute(0.5), 2),
        Ok(&[0]),
    ),
    (
        "choice of 0 to 2947 under Absolute(1473), M 2948: 2949 × 2947 is less than 2948 × 2948, Swing",
        || {
            let values: Vec<f32> = (0..2948u16).map(f32::from).collect();
            chosen(&Vec::from_iter(0..2948), &values, Absolute(1473.0), 2948)
        },
        Ok(&[1]),
    ),
    (
        "an empty list is 11",
        || chosen(&[], &[], Lossless, 1),
        Err((11, 0, 0)),
    ),
    (
        "unequal lengths are 12",
        || chosen(&[0], &[], Lossless, 1),
        Err((12, 0, 0)),
    ),
    (
        "65,537 timestamps and one value: 12",
        || chosen(&Vec::from_iter(0..=MOST_VALUES as i64), &[1.0], Lossless, 1),
        Err((12, 0, 0)),
    ),
    (
        "both models failed: a later timestamp may go back, and does not fit",
        || after_failing(-5),
        Ok(&[0]),
    ),
    (
        "both models failed: the timestamp's own limits are judged: 10",
        || after_failing(TIME_LIMIT + 1),
        Err((10, 0, 0)),
    ),
    (
        "a choice with PMC of length 1 and a fresh Swing: 11",
        || {
            let (row, mut out) = (row_of(1, [0, 0]), [0; SELECTED_MODEL_WORDS]);
            left(ffi::model_builder_finish(&row, 12, &mut out), out.to_vec())
        },
        Err((11, 0, 0)),
    ),
    (
        "a failed PMC-Mean with a bound of kind 7: the step goes on, the bound is Absolute(NaN)",
        || {
            let mut row = row_of(0, [7, 0]);
            let fault = ffi::model_builder_try_to_update_models(&mut row, 0, ONE);
            left(fault, row[..2].to_vec())
        },
        Ok(&[1, 0x7FC0_0000]),
    ),
    // Lines.
    (
        "the line from 1 at 0 to 2 at 10, drawn at 5 and 5: 10",
        || drawn((0, 10), (1.0, 2.0), &[5, 5]),
        Err((10, 0, 0)),
    ),
    (
        "a line from 1 to infinity: 11, also over an empty list",
        || drawn((0, 10), (1.0, f32::INFINITY), &[]),
        Err((11, 0, 0)),
    ),
    (
        "start and end of a Swing grid keep the limits: 10",
        || drawn((-TIME_LIMIT - 1, 10), (1.0, 2.0), &[]),
        Err((10, 0, 0)),
    ),
    (
        "a line that ends where it starts: 10, also over an empty list",
        || drawn((10, 10), (1.0, 2.0), &[]),
        Err((10, 0, 0)),
    ),
];

fn average(values: &[f32]) -> Said {
    let model = PMCMean::new(Lossless).and_then(|mut state| {
        for &value in values {
            state.fit_value(value)?;
        }
        state.model_bits()
    });
    said(model, |value| vec![value])
}

fn line_of(bound: ErrorBound, points: &[(i64, f32)]) -> Said {
    let model = Swing::new(bound).and_then(|mut state| {
        for &(time, value) in points {
            state.fit_data_point(time, value)?;
        }
        state.model_bits()
    });
    said(model, |(first, last)| vec![first, last])
}

/// The number of the chosen model.
fn chosen(times: &[i64], values: &[f32], bound: ErrorBound, m: usize) -> Said {
    let model = choose_model(times, values, bound, m);
    said(model, |model| vec![model.model_type_id()])
}

/// Whether a point fits after 0, 1 and 0, at which both models fail.
fn after_failing(time: i64) -> Said {
    let fits = ModelBuilder::new(Lossless).and_then(|mut builder| {
        for (time, value) in [(0, 0.0), (1, 1.0), (2, 0.0)] {
            builder.try_to_update_models(time, value)?;
        }
        builder.try_to_update_models(time, 0.0)
    });
    said(fits, |fits| vec![fits])
}

/// A builder with a PMC-Mean of so many values and this bound, which is live where it has values, and a
/// fresh Swing.
fn row_of(length: u64, bound: [u64; 2]) -> [u64; MODEL_BUILDER_WORDS] {
    let mut row = [0; MODEL_BUILDER_WORDS];
    row[..2].copy_from_slice(&bound);
    row[2..4].fill(NAN.into());
    row[5..7].copy_from_slice(&[length, length.min(1)]);
    ffi::swing_new((0, 0), &mut row[PMC_MEAN_WORDS..]);
    row[MODEL_BUILDER_WORDS - 1] = 1;
    row
}

/// A line's values at the times.
fn drawn((start_time, end_time): (i64, i64), ends: (f32, f32), times: &[i64]) -> Said {
    let line = Line {
        start_time,
        end_time,
        first_value: ends.0,
        last_value: ends.1,
    };
    let mut out = vec![0; times.len()];
    said(swing::grid_bits(line, times, &mut out), |()| out)
}
