//! Each call of the compiled face and the paper's on the same lent memory: what is answered, number,
//! value and place, and all that is lent afterwards are compared, and the library's memory stands between guards.

use super::kinds::{Ask, Kind};
use super::run::Point;
use crate::context::Context;
use crate::face::{choice, fit};
use crate::lent::{
    Left, STALE_VALUE, STALE_WORD, TIME_GUARD, VALUE_GUARD, WORD_GUARD, compared, to_read,
};
use modelardb_rattle::Fault;
use modelardb_rattle::ffi::{self, Ends, SELECTED_MODEL_WORDS, Words};

/// A fresh state into the row.
pub fn new(context: &mut Context, kind: &Kind, bound: Words, row: &[u64]) -> Left<u64> {
    let [paper, library] = kind.new;
    let input = || format!("{} new {bound:X?}", kind.name);
    compared(
        context,
        (row, WORD_GUARD),
        |row| paper(bound, row),
        |row| library(bound, row),
        input,
    )
}

/// The row of a fresh state.
pub fn fresh(context: &mut Context, kind: &Kind, bound: Words) -> Vec<u64> {
    new(context, kind, bound, &vec![STALE_WORD; kind.words]).1
}

/// A point tried with the state of the row.
pub fn step(context: &mut Context, kind: &Kind, row: &[u64], (time, value): Point) -> Left<u64> {
    let [paper, library] = kind.step;
    let input = || format!("{} step with {value:08X} at {time}", kind.name);
    compared(
        context,
        (row, WORD_GUARD),
        |row| paper(row, time, value),
        |row| library(row, time, value),
        input,
    )
}

/// The row of a fresh state that was stepped over the points; a refused step leaves it alone.
pub fn stepped(context: &mut Context, kind: &Kind, bound: Words, points: &[Point]) -> Vec<u64> {
    let mut row = fresh(context, kind, bound);
    for &point in points {
        (_, row) = step(context, kind, &row, point);
    }
    row
}

/// All that the state of the row can be asked, with a place to spare behind the answer.
pub fn asked(context: &mut Context, kind: &Kind, row: &[u64], m: usize) {
    for question in kind.asks {
        let out = &[STALE_VALUE; 3][..question.words + 1];
        ask(context, question, row, m, out);
    }
    if kind.is_builder() {
        finish(context, row, m, &[STALE_WORD; SELECTED_MODEL_WORDS + 1]);
    }
}

/// A cost or a model of the state of the row into `out`.
pub fn ask(context: &mut Context, ask: &Ask, row: &[u64], m: usize, out: &[u32]) -> Left<u32> {
    let ([paper, library], mut is_kept) = (ask.call, true);
    let input = || format!("{} of {row:X?}, M {m}", ask.name);
    let left = compared(
        context,
        (out, VALUE_GUARD),
        |out| paper(row, m, out),
        |out| to_read((row, WORD_GUARD), &mut is_kept, |row| library(row, m, out)),
        input,
    );
    context.same("row lent", true, is_kept, input);
    left
}

/// The choice of the builder of the row into `out`.
pub fn finish(context: &mut Context, row: &[u64], m: usize, out: &[u64]) -> Left<u64> {
    let mut is_kept = true;
    let input = || format!("choice of {row:X?}, M {m}");
    let left = compared(
        context,
        (out, WORD_GUARD),
        |out| choice::finish(row, m, out),
        |out| {
            to_read((row, WORD_GUARD), &mut is_kept, |row| {
                ffi::model_builder_finish(row, m, out)
            })
        },
        input,
    );
    context.same("row lent", true, is_kept, input);
    left
}

/// The whole rule over a list of points into `out`.
pub fn choose(
    context: &mut Context,
    (times, values): (&[i64], &[u32]),
    (bound, m): (Words, usize),
    out: &[u64],
) -> Left<u64> {
    let mut is_kept = [true; 2];
    let [times_kept, values_kept] = &mut is_kept;
    let input = || format!("choose_model {bound:X?} M {m} {times:?} {values:08X?}");
    let left = compared(
        context,
        (out, WORD_GUARD),
        |out| choice::choose_model(times, values, bound, m, out),
        |out| {
            to_read((times, TIME_GUARD), times_kept, |times| {
                to_read((values, VALUE_GUARD), values_kept, |values| {
                    ffi::choose_model(times, values, bound, m, out)
                })
            })
        },
        input,
    );
    context.same("lists lent", [true; 2], is_kept, input);
    left
}

/// PMC-Mean's sum of `count` values into `sum`, and its grid into `out`.
pub fn constant(context: &mut Context, value: u32, count: usize, sum: &[u32], out: &[u32]) {
    let input = || format!("PMC {value:08X} for {count} values");
    compared(
        context,
        (sum, VALUE_GUARD),
        |sum| fit::pmc_mean_sum(count, value, sum),
        |sum| ffi::pmc_mean_sum(count, value, sum),
        input,
    );
    compared(
        context,
        (out, VALUE_GUARD),
        |out| fit::pmc_mean_grid(value, count, out),
        |out| ffi::pmc_mean_grid(value, count, out),
        input,
    );
}

/// A line's sum by average into `out`.
pub fn average(context: &mut Context, ends: Ends, count: usize, out: &[u32]) -> Left<u32> {
    compared(
        context,
        (out, VALUE_GUARD),
        |out| fit::swing_sum_by_average(ends, count, out),
        |out| ffi::swing_sum_by_average(ends, count, out),
        || format!("average of {ends:X?} for {count} values"),
    )
}

/// A line's sum over a list of times, or its grid.
pub type Drawing = fn(Ends, &[i64], &mut [u32]) -> Fault;

/// The paper's and the library's.
pub const SUM_OVER: [Drawing; 2] = [fit::swing_sum_over, ffi::swing_sum_over];
pub const GRID: [Drawing; 2] = [fit::swing_grid, ffi::swing_grid];

/// A sum or a grid of a line into `out`.
pub fn drawn(
    context: &mut Context,
    [paper, library]: [Drawing; 2],
    ends: Ends,
    times: &[i64],
    out: &[u32],
) -> Left<u32> {
    let mut is_kept = true;
    let input = || format!("line {ends:X?} at {times:?}");
    let left = compared(
        context,
        (out, VALUE_GUARD),
        |out| paper(ends, times, out),
        |out| {
            to_read((times, TIME_GUARD), &mut is_kept, |times| {
                library(ends, times, out)
            })
        },
        input,
    );
    context.same("times lent", true, is_kept, input);
    left
}
