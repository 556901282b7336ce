//! Costs and the choice by them: every metadata size, and every length.

use super::kinds::{BUILDER, PMC_MEAN, SWING};
use super::{both, metadata};
use crate::context::Context;
use crate::inputs::{ONE, TWO};
use oracle::paper::MOST_VALUES;

/// The greatest length.
const MOST: u64 = MOST_VALUES as u64;

/// Where the lengths stand in a builder's row.
const LENGTHS: [usize; 2] = [5, 18];

/// Lengths of the two models: equal, one more, and about those at which a byte more is made up for.
const FEW: [[u64; 2]; 8] = [
    [1, 1],
    [1, 2],
    [2, 3],
    [3, 2],
    [12, 13],
    [12, 14],
    [MOST - 1, MOST],
    [MOST, MOST],
];

pub fn costs(context: &mut Context) {
    // A rising line, of which PMC-Mean takes the first value only.
    let row = both::stepped(context, &BUILDER, (0, 0), &[(0, ONE), (1, TWO)]);
    for lengths in FEW {
        for m in 0..=metadata::MOST + 2 {
            asked(context, &row, lengths, m);
        }
    }
    for length in 0..=MOST + 1 {
        let m = context.inputs.pick(&[1, 12, metadata::MOST]);
        let more = context.inputs.below(3);
        asked(context, &row, [length, length + more], m);
    }
}

/// The row of a builder, with other lengths.
pub fn with_lengths(row: &[u64], lengths: [u64; 2]) -> Vec<u64> {
    let mut row = row.to_vec();
    for (place, length) in LENGTHS.into_iter().zip(lengths) {
        row[place] = length;
    }
    // A Swing of one value has one time.
    if lengths[1] == 1 {
        row[10] = row[9];
    }
    row
}

/// The cost of each model and the choice, where they have these lengths.
fn asked(context: &mut Context, row: &[u64], lengths: [u64; 2], m: usize) {
    let row = with_lengths(row, lengths);
    both::asked(context, &PMC_MEAN, &row[..PMC_MEAN.words], m);
    both::asked(context, &SWING, &row[PMC_MEAN.words..], m);
    both::asked(context, &BUILDER, &row, m);
}
