//! Handed-in states: any bits in each of the eleven words, alone and together, with buffers around the
//! place that the state names.

use super::{Stream, both};
use crate::context::Context;
use crate::lent::STALE;
use modelardb_rattle::ffi::STATE_WORDS;
use oracle::paper::MOST_VALUES;

/// Ends of ranges, limits, and words too large for what they stand for.
pub const WORDS: [u64; 28] = [
    0,
    1,
    2,
    3,
    7,
    8,
    16,
    31,
    32,
    33,
    63,
    254,
    255,
    256,
    MOST_VALUES as u64 - 1,
    MOST_VALUES as u64,
    MOST_VALUES as u64 + 1,
    0x3F80_0000,
    0x7FC0_0000,
    0x7FFF_FFFF,
    0xFFFF_FFFF,
    1 << 32,
    (1 << 32) + 1,
    (1 << 32) + 255,
    (1 << 61) - 1,
    1 << 61,
    1 << 63,
    u64::MAX,
];

pub fn states(context: &mut Context) {
    for _ in 0..context.rounds(120) {
        let count = context.inputs.below(6) as usize;
        let stream = Stream::any(context, count);
        for place in 0..STATE_WORDS {
            for word in WORDS {
                let mut row = stream.row.clone();
                row[place] = word;
                written_from(context, &row, &stream.bytes);
            }
        }
    }
    for _ in 0..context.rounds(500_000) {
        let (row, buffer) = any_state(context);
        written_from(context, &row, &buffer);
    }
}

/// Nothing, one value and a few, behind the state.
fn written_from(context: &mut Context, row: &[u64], bytes: &[u8]) {
    let spare = context.inputs.below(24) as usize;
    let buffer = [bytes, &vec![STALE; spare]].concat();
    for count in [0, 1, 4] {
        let values = context.inputs.values(count);
        both::written(context, row, &values, &buffer);
    }
}

/// A state that may be used, with none to three of its words changed, and a buffer about its size.
pub fn any_state(context: &mut Context) -> (Vec<u64>, Vec<u8>) {
    let inputs = &mut context.inputs;
    let length = inputs.below(24);
    let leading = inputs.below(32);
    let has_window = length > 0 && inputs.flip();
    let [kind, bits] = inputs.any_bound().row();
    let mut row = vec![
        kind,
        bits,
        inputs.value().into(),
        inputs.value().into(),
        inputs.value().into(),
        if has_window { leading } else { 255 },
        if has_window {
            inputs.below(32 - leading)
        } else {
            0
        },
        inputs.below(2),
        if length > 0 { 1 + inputs.below(160) } else { 0 },
        length,
        inputs.value().into(),
    ];
    for _ in 0..inputs.below(4) {
        let place = inputs.below(STATE_WORDS as u64) as usize;
        row[place] = match inputs.below(3) {
            0 => inputs.word(),
            1 => row[place].wrapping_add(inputs.below(3)).wrapping_sub(1),
            _ => inputs.pick(&WORDS),
        };
    }
    let size = row[8].div_ceil(8).min(40).saturating_sub(inputs.below(2));
    let buffer = (0..size).map(|_| inputs.word() as u8).collect();
    (row, buffer)
}
