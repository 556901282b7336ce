//! The choice about the length from which on Swing wins: lengths that are handed in, and lists of whole numbers.

use super::costs::with_lengths;
use super::kinds::BUILDER;
use super::run::{Point, Run};
use super::{both, runs};
use crate::context::Context;
use crate::face::{self, choice::builder_in};
use crate::inputs::{Lengths, ONE, TWO, whole_numbers};
use crate::lent::STALE_WORD;
use crate::parts::choice;
use modelardb_rattle::ffi::SELECTED_MODEL_WORDS;
use oracle::paper::MOST_VALUES;
use oracle::paper::models::ErrorBound::{Absolute, Lossless};
use oracle::paper::types::SWING_ID;

const OUT: [u64; SELECTED_MODEL_WORDS] = [STALE_WORD; SELECTED_MODEL_WORDS];

/// The fewest readings of which the choice parts from that by the costs.
const FEWEST: Lengths = (2_948, [2_947, 2_948]);

pub fn edges(context: &mut Context) {
    handed_in(context);
    for at in 0..context.rounds(8) {
        let any = context.inputs.parting_edge(1 << 13);
        let run = won_by_swing(context, if at == 0 { FEWEST } else { any });
        runs::over(context, &run);
    }
    for _ in 0..context.rounds(4) {
        let lengths = context.inputs.parting_edge(MOST_VALUES);
        won_by_swing(context, lengths);
    }
}

/// Whole numbers of which the models take these lengths, where the costs in f32 tie: Swing is chosen for all.
fn won_by_swing(context: &mut Context, (m, lengths): Lengths) -> Run {
    let (values, bound) = whole_numbers(lengths);
    let run = Run {
        times: (0..values.len() as i64).collect(),
        values,
        bound,
        m: m as usize,
    };
    let words = (face::bound_words(bound), run.m);
    let (_, chosen) = both::choose(context, (&run.times, &run.values), words, &OUT);
    let wins = [SWING_ID.into(), run.values.len() as u64];
    context.same("Swing", &wins[..], &chosen[..2], || run.to_string());
    run
}

/// A rising line, and one that runs off to infinity, which is never chosen.
fn handed_in(context: &mut Context) {
    let (least, most) = (f32::MIN.to_bits(), f32::MAX.to_bits());
    let lines: [(_, [Point; 2]); 2] = [
        (Lossless, [(0, ONE), (1, TWO)]),
        (Absolute(3e38), [(0, least), (1, most)]),
    ];
    let [rises, runs_off] = lines.map(|(bound, points)| {
        let bound = face::bound_words(bound);
        both::stepped(context, &BUILDER, bound, &points)
    });
    for _ in 0..context.rounds(300_000) {
        let (m, lengths) = context.inputs.edge(MOST_VALUES);
        let row = context.inputs.pick(&[&rises, &rises, &rises, &runs_off]);
        let row = with_lengths(row, lengths.map(|length| length as u64));
        both::finish(context, &row, m as usize, &OUT);
        choice::choose(context, builder_in(&row), m);
    }
}
