//! Parameter bytes: written over special floats exhaustively, and read in every length and flag.

use crate::context::Context;
use crate::inputs::{DOZEN, SPECIAL};
use oracle::paper::numbers::canonical;
use oracle::paper::refusal;
use oracle::paper::types::{
    Extremes, decode_values_for_pmc_mean, decode_values_for_swing, pmc_mean_bytes, swing_bytes,
};

pub fn parameters(context: &mut Context) {
    for min_value in SPECIAL {
        for max_value in SPECIAL {
            let residuals = Extremes {
                min_value,
                max_value,
            };
            for value in SPECIAL {
                of_pmc_mean(context, value, residuals);
            }
            for first in DOZEN {
                for last in DOZEN {
                    of_swing(context, first, last, residuals);
                }
            }
        }
    }
    for _ in 0..context.rounds(300_000) {
        any_bytes(context);
    }
}

/// Listed: the Rust's form that does not read back is not written, but the 4 byte form.
fn of_pmc_mean(context: &mut Context, value: u32, residuals: Extremes) {
    let bytes = pmc_mean_bytes(value, residuals);
    let finished = Extremes::of_model(value, value).with(residuals);
    let input = || format!("parameters of PMC {value:08X}, {residuals:08X?}");
    let read = decode_values_for_pmc_mean(finished, &bytes);
    context.same("read back", Ok(canonical(value)), read, input);
    for rust in context.rust {
        let theirs = (rust.encode_pmc)(canonical(value), residuals);
        let reads_back = decode_values_for_pmc_mean(finished, &theirs) == Ok(canonical(value));
        if !reads_back {
            let whole = canonical(value).to_le_bytes();
            context.same("the 4 byte form", &bytes[..], &whole, input);
        }
        context.same_or(!reads_back, rust.name, &bytes, &theirs, input);
    }
}

/// Listed as well: which of two zeros is the minimum depends on the published build.
fn of_swing(context: &mut Context, first: u32, last: u32, residuals: Extremes) {
    let bytes = swing_bytes(first, last, residuals);
    let ends = (canonical(first), canonical(last));
    let finished = Extremes::of_model(ends.0, ends.1).with(residuals);
    let input = || format!("parameters of Swing {first:08X} {last:08X}, {residuals:08X?}");
    let read = decode_values_for_swing(finished, &bytes);
    context.same("read back", Ok(ends), read, input);
    for rust in context.rust {
        let theirs = (rust.encode_swing)(ends.0, ends.1, residuals);
        let reads_back = decode_values_for_swing(finished, &theirs) == Ok(ends);
        let by_the_build = !rust.is_filled() && has_two_zeros(ends);
        if !reads_back && !by_the_build {
            let whole = [ends.0.to_le_bytes(), ends.1.to_le_bytes()].concat();
            context.same("the 8 byte form", &bytes, &whole, input);
        }
        let is_listed = !reads_back || by_the_build;
        context.same_or(is_listed, rust.name, &bytes, &theirs, input);
    }
}

/// Whether the ends are zeros of both signs.
fn has_two_zeros((first, last): (u32, u32)) -> bool {
    first ^ last == 1 << 31 && first << 1 == 0
}

/// Any extremes and any bytes as parameters, the flag often one of those that there are.
pub fn any_form(context: &mut Context) -> (Extremes, Vec<u8>) {
    let inputs = &mut context.inputs;
    let segment = Extremes {
        min_value: inputs.value(),
        max_value: inputs.value(),
    };
    let length = inputs.below(11) as usize;
    let mut bytes: Vec<u8> = (0..length).map(|_| inputs.word() as u8).collect();
    if let Some(flag) = bytes.first_mut().filter(|_| inputs.flip()) {
        *flag %= 8;
    }
    (segment, bytes)
}

/// What the paper refuses with 9 faults there.
fn any_bytes(context: &mut Context) {
    let (segment, bytes) = any_form(context);
    let pmc_mean = decode_values_for_pmc_mean(segment, &bytes);
    let swing = decode_values_for_swing(segment, &bytes);
    let input = || format!("decoding {bytes:02X?}, {segment:08X?}");
    for rust in context.rust {
        let theirs = (rust.decode_pmc)(segment, &bytes).ok_or(refusal::FORM);
        context.same(rust.name, pmc_mean, theirs, input);
        let theirs = (rust.decode_swing)(segment, &bytes).ok_or(refusal::FORM);
        context.same(rust.name, swing, theirs, input);
    }
}
