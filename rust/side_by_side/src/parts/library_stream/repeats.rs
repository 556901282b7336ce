//! Repeats in a row, as many as the library reads at once and a few more or fewer, before any window and
//! in one, up to the end of the bytes or with values behind them: read as they are, cut, and with a bit
//! turned.

use super::Stream;
use super::damaged::{cut, flipped, used_as_it_is};
use crate::context::Context;
use oracle::paper::MOST_VALUES;
use oracle::paper::macaque_v::Opening;
use oracle::paper::models::ErrorBound::{Absolute, Lossless};

/// What the repeats stand behind: nothing, so that they repeat the opening value; a value; values that
/// set a window and keep it.
const BEFORE: [&[u32]; 3] = [
    &[],
    &[0x41A0_0000],
    &[0x41A0_0000, 0x41A0_4000, 0x41A0_2000],
];

/// What stands behind them: nothing, a value, values in one window, values of all kinds.
const BEHIND: [&[u32]; 4] = [
    &[],
    &[0x41A0_8000],
    &[0x41A0_8000, 0x41A0_4000, 0x41A0_C000],
    &[0xC000_0001, 0xC000_0001, 0x4000_0000, 0x4000_0001],
];

/// The most repeats in a row: two goes of the library, and some.
const MOST: usize = 64;

pub fn repeats(context: &mut Context) {
    for run in 0..=MOST {
        for (opening, values) in lists(run) {
            in_a_row(context, opening, run, &values);
        }
    }
    for count in [1_000, 1_024, 1_025, 1_052, 2_048, MOST_VALUES] {
        let values = vec![0x41A0_0000; count];
        let stream = Stream::new(context, Lossless, Opening::WithFirst, &values);
        used_as_it_is(context, &stream.bytes, stream.at(0));
        cut(context, &stream, stream.bytes.len() - 1);
    }
}

/// So many repeats in a row between all that they may stand between, in both modes.
pub fn lists(run: usize) -> Vec<(Opening, Vec<u32>)> {
    let mut lists = vec![];
    for opening in [Opening::WithFirst, Opening::On(0x4120_0000)] {
        for before in BEFORE {
            let last = match (before.last(), opening) {
                (Some(&value), _) => value,
                (None, Opening::On(value)) => value,
                (None, Opening::WithFirst) => 0,
            };
            let repeats = vec![last; run];
            let list = |behind: &[u32]| (opening, [before, &repeats, behind].concat());
            lists.extend(BEHIND.map(list));
        }
    }
    lists
}

fn in_a_row(context: &mut Context, opening: Opening, run: usize, values: &[u32]) {
    let bound = match run % 2 {
        0 => Lossless,
        _ => Absolute(0.5),
    };
    let stream = Stream::new(context, bound, opening, values);
    used_as_it_is(context, &stream.bytes, stream.at(0));
    let bits = 8 * stream.bytes.len();
    for place in bits.saturating_sub(24)..bits {
        flipped(context, &stream, place);
    }
    for used in stream.bytes.len().saturating_sub(10)..stream.bytes.len() {
        cut(context, &stream, used);
    }
}
