//! Runs of up to a thousand points, at times that are allowed or not, and runs about the limit of 65,536.

use super::kinds::KINDS;
use super::metadata;
use super::run::{Point, Run};
use super::{both, safe};
use crate::context::Context;
use crate::face;
use crate::inputs::ABOUT_MOST;
use crate::lent::STALE_WORD;
use crate::parts::choice;
use modelardb_rattle::Fault;
use modelardb_rattle::ffi::SELECTED_MODEL_WORDS;
use oracle::paper::MOST_VALUES;
use oracle::paper::judge_times;
use oracle::paper::models::ErrorBound::{self, Absolute, Lossless, Relative};
use oracle::paper::refusal;

pub fn runs(context: &mut Context) {
    for _ in 0..context.rounds(5_000) {
        let most = context.inputs.pick(&[8, 64, 64, 1000]);
        let count = context.inputs.below(most + 1) as usize;
        let (times, values) = (
            context.inputs.any_times(count),
            context.inputs.values(count),
        );
        let run = Run {
            bound: context.inputs.bound_for(&values),
            times,
            values,
            m: context.inputs.pick(&metadata::SIZES),
        };
        over(context, &run);
    }
    for bound in [Lossless, Absolute(0.5), Relative(1.0)] {
        for count in [0, 1].into_iter().chain(ABOUT_MOST) {
            long(context, bound, count);
        }
    }
}

/// Stepped by each kind of state, and by the whole rule.
pub fn over(context: &mut Context, run: &Run) {
    let bound = face::bound_words(run.bound);
    let mut finished = (Fault::ACCEPTED, vec![]);
    let points: Vec<Point> = run.points().collect();
    for kind in &KINDS {
        let row = both::stepped(context, kind, bound, &points);
        both::asked(context, kind, &row, run.m);
        if kind.is_builder() {
            finished = both::finish(context, &row, run.m, &[STALE_WORD; SELECTED_MODEL_WORDS]);
        }
    }
    let lists = (&run.times[..], &run.values[..]);
    let out = [STALE_WORD; SELECTED_MODEL_WORDS];
    let chosen = both::choose(context, lists, (bound, run.m), &out);
    let are_allowed = judge_times(&run.times).is_ok();
    if are_allowed {
        context.same("in one call", finished, chosen, || run.to_string());
        if !run.values.is_empty() && metadata::is_allowed(run.m) {
            choice::over_list(context, lists, run.bound, run.m as u32);
        }
    }
    safe::over(context, run);
}

/// Equal values, and so many that the next one is over the limit: in one call, and step by step.
fn long(context: &mut Context, bound: ErrorBound, count: usize) {
    let words = face::bound_words(bound);
    let times: Vec<i64> = (0..count as i64).map(|time| 10 * time - 300_000).collect();
    let mut values = vec![0x41A4_0000; count];
    let out = [STALE_WORD; SELECTED_MODEL_WORDS + 1];
    both::choose(context, (&times, &values), (words, 12), &out);
    if count == MOST_VALUES {
        for kind in &KINDS {
            let points: Vec<Point> = times.iter().copied().zip(values.clone()).collect();
            let row = both::stepped(context, kind, words, &points);
            both::asked(context, kind, &row, 12);
            let next = (400_000, values[0]);
            let (fault, _) = both::step(context, kind, &row, next);
            let input = || format!("{} of 65,536 values takes no more", kind.name);
            context.same("library", refusal::LIMIT.into(), fault, input);
        }
    }
    // A last value that no model takes; then another first value too.
    for (at, value) in [(count.wrapping_sub(1), 0x7FC0_0000), (0, 0x41A3_0000)] {
        if let Some(place) = values.get_mut(at) {
            *place = value;
            both::choose(context, (&times, &values), (words, metadata::MOST), &out);
        }
    }
}
