//! f32 to f64 and back: the library, the paper on whole numbers, and the machine's casts.

use crate::context::Context;
use modelardb_rattle::{narrow_bits, widen_bits};
use oracle::paper::numbers;

pub fn widen(context: &mut Context) {
    for pattern in special_f32() {
        widen_one(context, pattern);
    }
    for _ in 0..context.rounds(60_000_000) {
        let pattern = context.inputs.word() as u32;
        widen_one(context, pattern);
    }
}

pub fn widen_every_f32(context: &mut Context) {
    for pattern in 0..=u32::MAX {
        widen_one(context, pattern);
    }
}

fn widen_one(context: &mut Context, bits: u32) {
    let paper = numbers::widen(bits);
    let input = || format!("widen {bits:08X}");
    context.same("cast", paper, numbers::widen_by_cast(bits), input);
    context.same("library", paper, widen_bits(bits), input);
}

/// For each sign and exponent the fractions around every power of two, so zeros, infinities, NaNs
/// and subnormals too.
fn special_f32() -> Vec<u32> {
    let mut patterns = vec![];
    for head in 0..512u32 {
        for power in 0..=23 {
            let edge = 1u32 << power;
            for fraction in [edge - 1, edge, edge + 1, edge | 1 << 22, !edge] {
                patterns.push(head << 23 | fraction & 0x7F_FFFF);
            }
        }
    }
    patterns
}

pub fn narrow(context: &mut Context) {
    for head in 0..4096 {
        for dropped in 1..=52 {
            for bits in around_a_tie(head, dropped) {
                narrow_one(context, bits);
            }
        }
    }
    for _ in 0..context.rounds(25_000_000) {
        let any = context.inputs.word();
        narrow_one(context, any);
        // An exponent at which f32 is normal, subnormal or about to overflow.
        let exponent = 1023 - 160 + context.inputs.below(320);
        narrow_one(context, any & !(0x7FF << 52) | exponent << 52);
    }
}

fn narrow_one(context: &mut Context, bits: u64) {
    let paper = numbers::narrow(bits);
    let input = || format!("narrow {bits:016X}");
    context.same("cast", paper, numbers::narrow_by_cast(bits), input);
    context.same("library", paper, narrow_bits(bits), input);
}

/// Patterns of one sign and exponent in which the lowest `dropped` bits lie at, next to and far from
/// a tie, under kept bits that are odd, even, or carry far.
fn around_a_tie(head: u64, dropped: u32) -> Vec<u64> {
    let half = 1u64 << (dropped - 1);
    let kept_ones = (1u64 << (52 - dropped)) - 1;
    let mut patterns = vec![];
    for kept in [
        0,
        1,
        2,
        kept_ones / 3,
        kept_ones.saturating_sub(1),
        kept_ones,
    ] {
        for rest in [0, 1, half - 1, half, half + 1, 2 * half - 1] {
            let fraction = (kept & kept_ones) << dropped | rest & (2 * half - 1);
            patterns.push(head << 52 | fraction);
        }
    }
    patterns
}
