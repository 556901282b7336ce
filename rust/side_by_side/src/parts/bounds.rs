//! The within test and the deviation, over all three bounds, allowed or not.

use crate::context::Context;
use crate::inputs::SPECIAL;
use modelardb_rattle as library;
use oracle::paper::models::ErrorBound::{self, Absolute, Lossless, Relative};
use oracle::paper::models::{is_value_within_error_bound, maximum_allowed_deviation};
use oracle::paper::numbers::bits_of_f64;

pub fn within(context: &mut Context) {
    for bound in special_bounds() {
        for real in SPECIAL {
            for approximate in SPECIAL {
                within_one(context, bound, real, approximate);
            }
        }
    }
    for _ in 0..context.rounds(50_000_000) {
        let (bound, real, approximate) = any_pair(context);
        within_one(context, bound, real, approximate);
    }
}

/// Any bound and values, and such as lie at the bound.
fn any_pair(context: &mut Context) -> (ErrorBound, u32, u32) {
    let inputs = &mut context.inputs;
    let (bound, real, approximate) = (inputs.any_bound(), inputs.value(), inputs.value());
    match inputs.below(6) {
        0 => (bound, real, approximate),
        1 => (inputs.bound_about(real, approximate), real, approximate),
        2 => at_a_whole_per_cent(context),
        _ => (bound, real, near_the_edge(context, bound, real)),
    }
}

/// Two values that lie exactly at a bound of a whole per cent, where the last bit of a quotient decides.
fn at_a_whole_per_cent(context: &mut Context) -> (ErrorBound, u32, u32) {
    let inputs = &mut context.inputs;
    let percent = 1.0 + inputs.below(100) as f32;
    let hundredth = (1 + inputs.below(1000)) as f32 / (1u32 << inputs.below(12)) as f32;
    let of_hundred = inputs.pick(&[100.0 - percent, 100.0 + percent]);
    let [real, approximate] = [100.0, of_hundred].map(|times| (times * hundredth).to_bits());
    (Relative(percent), real, approximate)
}

fn within_one(context: &mut Context, bound: ErrorBound, real: u32, approximate: u32) {
    let ask = || is_value_within_error_bound(bound, real, approximate);
    let paper = ask();
    let first = context.first(&paper, ask);
    let input = || format!("within {:X?} {real:08X} {approximate:08X}", bound.row());
    let ours = library::is_value_within_error_bound_bits(of_library(bound), real, approximate);
    context.same("library", paper, ours.map_err(|r| r.number()), input);
    for rust in context.rust.iter().filter(|_| bound.is_allowed()) {
        let theirs = Ok((rust.within)(bound, real, approximate));
        context.same(rust.name, first, theirs, input);
    }
    if matches!(bound, Absolute(_)) {
        // What the test in f64 lets through, that in f32 does too.
        let in_f64_alone = (paper, first) == (Ok(true), Ok(false));
        context.same("the test in f32", false, in_f64_alone, input);
    }
}

/// A value about as far from `real` as the bound allows, and a few steps beside it.
fn near_the_edge(context: &mut Context, bound: ErrorBound, real: u32) -> u32 {
    let value = f32::from_bits(real);
    let away = match bound {
        Lossless => 0.0,
        Absolute(bound) => bound,
        Relative(bound) => value * (bound / 100.0),
    };
    let edge = if context.inputs.flip() {
        value + away
    } else {
        value - away
    };
    let steps = context.inputs.below(7) as u32;
    edge.to_bits().wrapping_add(steps).wrapping_sub(3)
}

pub fn deviation(context: &mut Context) {
    for bound in special_bounds() {
        for value in SPECIAL {
            let wide = f64::from(f32::from_bits(value)).to_bits();
            deviation_one(context, bound, wide);
            deviation_one(context, bound, u64::from(value) << 32 | u64::from(value));
        }
    }
    for _ in 0..context.rounds(25_000_000) {
        let bound = context.inputs.any_bound();
        let value = context.inputs.wide().to_bits();
        deviation_one(context, bound, value);
    }
}

fn deviation_one(context: &mut Context, bound: ErrorBound, value: u64) {
    let paper = maximum_allowed_deviation(bound, value);
    let input = || format!("deviation {:X?} {value:016X}", bound.row());
    let ours = library::maximum_allowed_deviation_bits(of_library(bound), value);
    context.same("library", paper, ours.map_err(|r| r.number()), input);
    for rust in context.rust.iter().filter(|_| bound.is_allowed()) {
        let theirs = (rust.deviation)(bound, value);
        let listed = if rust.is_filled() {
            paper
        } else {
            Ok(published_deviation(bound, f64::from_bits(value)))
        };
        context.same(rust.name, listed, Ok(theirs), input);
    }
}

/// The listed difference: the published text stays under the bound by a little.
fn published_deviation(bound: ErrorBound, value: f64) -> u64 {
    bits_of_f64(match bound {
        Lossless => 0.0,
        Absolute(bound) => f64::from(bound) * 0.99,
        Relative(bound) => (value * (f64::from(bound) / 100.1)).abs(),
    })
}

fn special_bounds() -> Vec<ErrorBound> {
    let floats = SPECIAL.map(f32::from_bits);
    let absolute = floats.map(Absolute);
    let relative = floats.map(Relative);
    [vec![Lossless], absolute.to_vec(), relative.to_vec()].concat()
}

fn of_library(bound: ErrorBound) -> library::ErrorBound {
    match bound {
        Lossless => library::ErrorBound::Lossless,
        Absolute(bound) => library::ErrorBound::Absolute(bound),
        Relative(bound) => library::ErrorBound::Relative(bound),
    }
}
