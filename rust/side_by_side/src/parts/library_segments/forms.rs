//! Parameter bytes: written over special floats exhaustively, in every room, and read in every length and
//! with every flag.

use super::{both, safe};
use crate::context::Context;
use crate::face::segments::extremes;
use crate::inputs::{DOZEN, SPECIAL};
use crate::lent::{STALE, STALE_VALUE, STALE_WORD};
use crate::parts::parameters::any_form;
use modelardb_rattle::Fault;
use modelardb_rattle::ffi::Pair;
use oracle::paper::numbers::canonical;
use oracle::paper::refusal;
use oracle::paper::types::{Extremes, PMC_MEAN_ID, SWING_ID};

/// How many values each model's parameters are.
const ENDS: [usize; 2] = [1, 2];

pub fn parameter_bytes(context: &mut Context) {
    for min in SPECIAL {
        for max in SPECIAL {
            for value in SPECIAL {
                written(context, (PMC_MEAN_ID, (value, STALE_VALUE)), (min, max));
            }
            for first in DOZEN {
                for last in DOZEN {
                    written(context, (SWING_ID, (first, last)), (min, max));
                }
            }
        }
    }
    for _ in 0..context.rounds(40_000) {
        let inputs = &mut context.inputs;
        let model = (inputs.below(2) as u32, (inputs.value(), inputs.value()));
        let residuals = (inputs.value(), inputs.value());
        written(context, model, residuals);
    }
    every_flag(context);
    for _ in 0..context.rounds(40_000) {
        let (segment, bytes) = any_form(context);
        in_every_room(context, (segment.min_value, segment.max_value), &bytes);
    }
}

/// Written with places to spare, with just enough room and with a byte less; read back bit for bit.
fn written(context: &mut Context, (model, ends): (u32, Pair), residuals: Pair) {
    let (out, row) = ([STALE; 10], [STALE_WORD; 2]);
    let (fault, bytes, words) = both::encoded(context, (model, ends), residuals, &out, &row);
    let input = || format!("parameters of {model} {ends:08X?}, {residuals:08X?}");
    context.same("room", Fault::ACCEPTED, fault, input);
    let length = words[0] as usize;
    let bytes = &bytes[..length];
    both::encoded(context, (model, ends), residuals, &out[..length], &row[..1]);
    if length > 0 {
        let short = &out[..length - 1];
        let (fault, ..) = both::encoded(context, (model, ends), residuals, short, &row);
        context.same("a byte less", refusal::OUTPUT.into(), fault, input);
    }
    read_back(context, (model, ends), residuals, bytes);
}

/// Read with the finished segment's extremes.
fn read_back(context: &mut Context, (model, ends): (u32, Pair), residuals: Pair, bytes: &[u8]) {
    let last = if model == SWING_ID { ends.1 } else { ends.0 };
    let [first, last] = [ends.0, last].map(canonical);
    let finished = Extremes::of_model(first, last).with(extremes(residuals));
    let segment = (finished.min_value, finished.max_value);
    let (mut left, count) = (vec![STALE_VALUE; 3], ENDS[model as usize]);
    let read = both::decoded(context, model, segment, bytes, &left);
    left[..count].copy_from_slice(&[first, last][..count]);
    context.same("read back", (Fault::ACCEPTED, left), read, || {
        format!("parameters {bytes:02X?} of {model} {ends:08X?}, {residuals:08X?}")
    });
    safe::parameters(context, (model, ends), [residuals, segment], bytes);
}

/// Every length with every first byte, with extremes that are all different and with special ones, in
/// every room.
fn every_flag(context: &mut Context) {
    let bytes: Vec<u8> = (0x10..0x1B).collect();
    let extremes = [
        (0x3F80_0000, 0x4000_0000),
        (0x8000_0000, 0),
        (0x7FC0_0001, 0xFFC1_2345),
        (0x7F80_0000, 0xFF80_0000),
    ];
    for segment in extremes {
        for length in 0..=10 {
            for flag in 0..=255 {
                let mut bytes = bytes[..length].to_vec();
                bytes.iter_mut().take(1).for_each(|byte| *byte = flag);
                in_every_room(context, segment, &bytes);
            }
        }
    }
}

fn in_every_room(context: &mut Context, segment: Pair, bytes: &[u8]) {
    for model in [PMC_MEAN_ID, SWING_ID] {
        for room in 0..4 {
            both::decoded(context, model, segment, bytes, &[STALE_VALUE; 4][..room]);
        }
    }
}
