//! Handed-in states: any bits in each word of a row, alone and together.

use super::kinds::{KINDS, Kind};
use super::run::Point;
use super::{both, metadata};
use crate::context::Context;
use crate::face;
use oracle::paper::MOST_VALUES;

/// The greatest length.
const MOST: u64 = MOST_VALUES as u64;

/// Ends of ranges, limits, and words too large for what they stand for: flags and lengths, values of 32
/// and of 64 bits, times.
const WORDS: [u64; 32] = [
    0,
    1,
    2,
    3,
    MOST - 1,
    MOST,
    MOST + 1,
    0x3F80_0000, // 1 in 32 bits
    0x7F80_0000, // infinity
    0x7F80_0001, // NaNs
    0x7FC0_0000,
    0x7FFF_FFFF,
    0x8000_0000,
    0xFFFF_FFFF,
    1 << 32,
    (1 << 32) + 1,
    (1 << 32) + 0x3F80_0000,
    (1 << 52) - 1, // the time limits
    1 << 52,
    (1 << 52) + 1,
    0xFFEF_FFFF_FFFF_FFFF,
    0xFFF0_0000_0000_0000, // -2^52, and minus infinity in 64 bits
    0xFFF0_0000_0000_0001, // a NaN
    0x3FF0_0000_0000_0000, // 1 in 64 bits
    0xBFF0_0000_0000_0000,
    0x7FEF_FFFF_FFFF_FFFF, // the greatest
    0x7FF0_0000_0000_0000, // infinity
    0x7FF0_0000_0000_0001,
    0x7FF8_0000_0000_0000, // NaN
    (1 << 63) - 1,
    1 << 63,
    u64::MAX,
];

pub fn states(context: &mut Context) {
    for kind in &KINDS {
        for _ in 0..context.rounds(100) {
            let (row, last) = any_run(context, kind);
            for place in 0..kind.words {
                for word in WORDS {
                    let mut changed = row.clone();
                    changed[place] = word;
                    handed_in(context, kind, &changed, last);
                }
            }
        }
        for _ in 0..context.rounds(400_000) {
            let (row, last) = any_row(context, kind);
            handed_in(context, kind, &row, last);
        }
    }
}

/// A state after a few steps, and the time of the last one.
fn any_run(context: &mut Context, kind: &Kind) -> (Vec<u64>, i64) {
    let count = context.inputs.below(6) as usize;
    let (times, values) = (context.inputs.times(count), context.inputs.values(count));
    let bound = face::bound_words(context.inputs.bound());
    let points: Vec<Point> = times.iter().copied().zip(values).collect();
    let row = both::stepped(context, kind, bound, &points);
    (row, times.last().copied().unwrap_or(0))
}

/// A step about the last time, and all that the state can be asked.
fn handed_in(context: &mut Context, kind: &Kind, row: &[u64], last: i64) {
    let inputs = &mut context.inputs;
    let later = [1, 1, 60, 0, -1, 1 << 34, i64::MAX - last.max(0)];
    let point = (last + inputs.pick(&later), inputs.value());
    let m = inputs.pick(&metadata::SIZES);
    both::step(context, kind, row, point);
    both::asked(context, kind, row, m);
}

/// A row of any words: each field as it may be, with none to three of them changed.
fn any_row(context: &mut Context, kind: &Kind) -> (Vec<u64>, i64) {
    let times = context.inputs.times(2);
    let inputs = &mut context.inputs;
    let bound = inputs.any_bound();
    let mut row = vec![];
    let [has_pmc_mean, has_swing] = kind.holds;
    if has_pmc_mean {
        row.extend(bound.row());
        row.extend([inputs.value(), inputs.value()].map(u64::from));
        row.extend([inputs.wide().to_bits(), inputs.below(MOST + 2)]);
        row.push(inputs.below(8).min(1));
    }
    if has_swing {
        let length = match inputs.below(3) {
            0 => inputs.below(3),
            _ => inputs.below(MOST + 2),
        };
        row.extend(bound.row());
        row.extend([times[0] as u64, times[usize::from(length > 1)] as u64]);
        row.extend((0..7).map(|_| inputs.wide().to_bits()));
        row.push(length);
        row.push(inputs.below(8).min(1));
    }
    for _ in 0..inputs.below(4) {
        let place = inputs.below(kind.words as u64) as usize;
        row[place] = match inputs.below(3) {
            0 => inputs.word(),
            1 => row[place].wrapping_add(inputs.below(3)).wrapping_sub(1),
            _ => inputs.pick(&WORDS),
        };
    }
    (row, times[1])
}
