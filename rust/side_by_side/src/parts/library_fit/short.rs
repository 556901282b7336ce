//! Every run of up to five of the dozen special values, by each kind of state and by the whole rule.

use super::both;
use super::kinds::{BUILDER, KINDS, Kind};
use crate::context::Context;
use crate::face::{self, choice::builder_in};
use crate::inputs::DOZEN;
use crate::lent::STALE_WORD;
use crate::parts::choice;
use crate::parts::macaque_v::short_lists;
use modelardb_rattle::ffi::SELECTED_MODEL_WORDS;
use oracle::paper::models::ErrorBound::{self, Absolute, Lossless, Relative};

const LONGEST: usize = 5;

/// Each bound with times of its own: regular, with gaps, and about a time of today.
const BOUNDS: [(ErrorBound, [i64; LONGEST]); 3] = [
    (Lossless, [0, 1, 2, 3, 4]),
    (Absolute(0.5), [-3, 0, 1, 60, 61]),
    (
        Relative(10.0),
        [
            1_700_000_000_000_000,
            1_700_000_000_060_000,
            1_700_000_000_120_000,
            1_700_000_000_180_000,
            1_700_000_000_240_001,
        ],
    ),
];

pub fn short_runs(context: &mut Context) {
    at_a_nan(context);
    let lists = short_lists(LONGEST);
    for (bound, times) in BOUNDS {
        let words = face::bound_words(bound);
        for kind in &KINDS {
            let row = both::fresh(context, kind, words);
            runs_from(context, kind, &row, &times);
        }
        for list in &lists {
            let m = 1 + context.inputs.below(16) as usize;
            let points = (&times[..list.len()], &list[..]);
            let out = [STALE_WORD; SELECTED_MODEL_WORDS];
            both::choose(context, points, (words, m), &out);
        }
    }
}

/// Each of the dozen at each of the times, from a state on.
fn runs_from(context: &mut Context, kind: &Kind, row: &[u64], times: &[i64]) {
    let m = 1 + context.inputs.below(16) as usize;
    both::asked(context, kind, row, m);
    if kind.is_builder() && row[5] > 0 {
        choice::choose(context, builder_in(row), m as u32);
    }
    let [time, later @ ..] = times else {
        return;
    };
    for value in DOZEN {
        let (_, after) = both::step(context, kind, row, (*time, value));
        if kind.is_builder() {
            choice::step(context, builder_in(row), *time, value);
        }
        runs_from(context, kind, &after, later);
    }
}

/// Lossless 1.0, NaN, 1.0: at the NaN both models fail, and the third value does not fit again.
fn at_a_nan(context: &mut Context) {
    let (one, nan) = (0x3F80_0000, 0x7FC0_0000);
    let mut row = both::fresh(context, &BUILDER, (0, 0));
    let mut flags = vec![];
    for point in [(0, one), (1, nan), (2, one)] {
        (_, row) = both::step(context, &BUILDER, &row, point);
        flags.push([row[5], row[6], row[18], row[19]]);
    }
    let input = || "Lossless 1.0, NaN, 1.0: lengths and flags".to_string();
    let listed = vec![[1, 1, 1, 1], [1, 0, 1, 0], [1, 0, 1, 0]];
    context.same("library", listed, flags, input);
    let (_, chosen) = both::finish(context, &row, 12, &[STALE_WORD; SELECTED_MODEL_WORDS]);
    let twelve = u64::from(12f32.to_bits());
    let one = u64::from(one);
    context.same("library", vec![0, 1, one, one, twelve], chosen, input);
}
