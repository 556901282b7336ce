//! Swing: steps of fresh states and of any handed-in one, models, costs, sums and grids.

use crate::context::Context;
use crate::inputs::SPECIAL;
use oracle::paper::Answer;
use oracle::paper::models::ErrorBound::Lossless;
use oracle::paper::refusal;
use oracle::paper::swing::{self, Line, Swing};
use oracle::paper::{MOST_METADATA, MOST_VALUES};

pub fn swing(context: &mut Context) {
    for _ in 0..context.rounds(120_000) {
        let count = context.inputs.below(40) as usize;
        let (times, values) = (context.inputs.times(count), context.inputs.values(count));
        let mut state = Swing::new(context.inputs.bound()).expect("an allowed bound");
        for (time, value) in times.into_iter().zip(values) {
            state = step(context, state, time, value);
        }
        of_state(context, state);
    }
    for _ in 0..context.rounds(3_000_000) {
        let (state, next_time) = any_state(context);
        let value = context.inputs.value();
        step(context, state, next_time, value);
        of_state(context, state);
    }
}

fn step(context: &mut Context, state: Swing, time: i64, value: u32) -> Swing {
    let (fits, next) = state.fit_data_point(time, value).expect("an allowed step");
    for rust in context.rust {
        let (their_fits, theirs) = (rust.swing_step)(state, time, value);
        // Listed: the published deviation is smaller than the bound.
        let is_listed = !rust.is_filled() && state.error_bound != Lossless;
        let (ours, theirs) = ((fits, next.row()), (their_fits, theirs.row()));
        context.same_or(is_listed, rust.name, ours, theirs, || {
            format!("Swing {:X?} with {value:08X} at {time}", state.row())
        });
    }
    next
}

fn of_state(context: &mut Context, state: Swing) {
    let m = 1 + context.inputs.below(MOST_METADATA.into()) as u32;
    let paper = (state.model(), state.bytes_per_value(m));
    let input = || format!("Swing model {:X?}, M {m}", state.row());
    // "A state of length 0 asked for its model or cost": 11. There it is answered.
    let refusal = (state.length == 0).then_some(refusal::NO_MODEL);
    let refusals = (paper.0.err(), paper.1.err());
    context.same("a length of 0", refusals, (refusal, refusal), input);
    for rust in context.rust.iter().filter(|_| state.length > 0) {
        let theirs = (
            Ok((rust.swing_model)(state)),
            Ok((rust.swing_cost)(state, m)),
        );
        // Listed: which of two zeros is the minimum depends on the build there.
        let is_listed = !rust.is_filled() && state.first_value == 0.0;
        context.same_or(is_listed, rust.name, paper, theirs, input);
    }
}

/// A state with any bits in its fields, and a time that may follow it.
pub fn any_state(context: &mut Context) -> (Swing, i64) {
    let length = match context.inputs.below(4) {
        0 => context.inputs.below(3),
        _ => context.inputs.below(MOST_VALUES as u64),
    };
    let times = context.inputs.times(3);
    let inputs = &mut context.inputs;
    let state = Swing {
        error_bound: inputs.bound(),
        start_time: times[0],
        end_time: times[usize::from(length > 1)],
        first_value: inputs.wide(),
        upper_bound_slope: inputs.wide(),
        upper_bound_intercept: inputs.wide(),
        lower_bound_slope: inputs.wide(),
        lower_bound_intercept: inputs.wide(),
        numerator: inputs.wide(),
        denominator: inputs.wide(),
        length: length as usize,
    };
    (state, times[2])
}

pub fn lines(context: &mut Context) {
    for first_value in SPECIAL {
        for last_value in SPECIAL {
            one_line(context, first_value, last_value);
        }
    }
    for _ in 0..context.rounds(300_000) {
        let (first_value, last_value) = (context.inputs.value(), context.inputs.value());
        one_line(context, first_value, last_value);
    }
}

/// Grid and sum of a line over times of which the first and last are its ends.
fn one_line(context: &mut Context, first_value: u32, last_value: u32) {
    let count = 2 + context.inputs.below(12) as usize;
    let times = context.inputs.times(count);
    let line = Line {
        start_time: times[0],
        end_time: times[count - 1],
        first_value,
        last_value,
    };
    let mut grid = vec![0; count];
    let sum = if is_regular(&times) {
        swing::sum_by_average(line, count)
    } else {
        swing::sum_over(line, &times)
    };
    let drawn = swing::grid(line, &times, &mut grid);
    let input = || format!("{line:X?} over {times:?}");
    let refusal = is_no_line(first_value, last_value).then_some(refusal::NO_MODEL);
    let refusals = (drawn.err(), sum.err());
    context.same("no line", refusals, (refusal, refusal), input);
    if refusal.is_none() {
        beside_the_rust(context, line, &times, (sum, &grid));
    }
}

/// The paper's sum and grid of a line beside those of the Rust's text, the sum by average where the Rust
/// takes the times for regular. Listed: a line with an infinite end is drawn there.
pub fn beside_the_rust(
    context: &mut Context,
    line: Line,
    times: &[i64],
    (sum, grid): (Answer<u32>, &[u32]),
) {
    let input = || format!("{line:X?} over {times:?}");
    for rust in context.rust {
        context.same(rust.name, sum, Ok((rust.swing_sum)(line, times)), input);
        let theirs = (rust.swing_grid)(line, times);
        context.same(rust.name, grid, &theirs[..], input);
    }
}

/// "A Swing grid or sum whose ends are not equal-or-NaN while at least one is not finite."
pub fn is_no_line(first: u32, last: u32) -> bool {
    let (first, last) = (f32::from_bits(first), f32::from_bits(last));
    let is_equal_or_nan = first == last || (first.is_nan() && last.is_nan());
    !is_equal_or_nan && (!first.is_finite() || !last.is_finite())
}

/// Whether the Rust takes the times for regular.
pub fn is_regular(times: &[i64]) -> bool {
    let step = |pair: &[i64]| pair[1] - pair[0];
    times.windows(2).all(|pair| step(pair) == step(times))
}
