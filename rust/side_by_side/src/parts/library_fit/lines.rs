//! Sums and grids: of a constant, and of lines between any two values at any times.

use super::both::{self, GRID, SUM_OVER};
use crate::context::Context;
use crate::face::{fit, numbered};
use crate::inputs::{ABOUT_MOST, SPECIAL};
use crate::lent::STALE_VALUE;
use crate::parts::swing;
use modelardb_rattle::ffi::Ends;
use modelardb_rattle::{self as library, Fault, Line};
use oracle::paper::{Answer, MOST_VALUES};

/// None, few, the limit, and what lies beyond it.
const COUNTS: [usize; 8] = [0, 1, 2, 3, 255, MOST_VALUES, MOST_VALUES + 1, usize::MAX];

pub fn lines(context: &mut Context) {
    let mut out = vec![STALE_VALUE; MOST_VALUES + 2];
    for value in SPECIAL {
        for count in COUNTS {
            constant(context, value, count);
            both::average(context, ((0, 10), (value, value)), count, &out[..1]);
        }
        for last in SPECIAL {
            let count = 2 + context.inputs.below(6) as usize;
            let times = context.inputs.times(count);
            let ends = ((times[0], times[count - 1]), (value, last));
            by_each_call(context, ends, &times);
        }
    }
    for _ in 0..context.rounds(120_000) {
        let (count, asked) = (context.inputs.below(9), context.inputs.below(9));
        let around = context.inputs.any_times(count as usize + 2);
        let times = context.inputs.any_times(asked as usize);
        let inputs = &mut context.inputs;
        let end_times = (inputs.pick(&around), inputs.pick(&around));
        let ends = (end_times, (inputs.value(), inputs.value()));
        let own = context.inputs.flip();
        by_each_call(context, ends, if own { &around } else { &times });
    }
    for count in ABOUT_MOST {
        out.truncate(count);
        let times = context.inputs.times(count);
        let ends = ((times[0], times[count - 1]), (0x41A0_0000, 0xC1A4_0000));
        both::drawn(context, GRID, ends, &times, &out);
        both::drawn(context, GRID, ends, &times, &out[1..]);
        both::drawn(context, SUM_OVER, ends, &times, &out[..1]);
        out.resize(MOST_VALUES + 2, STALE_VALUE);
    }
}

/// A constant's sum and grid: outputs just long enough, with places to spare, and too short.
fn constant(context: &mut Context, value: u32, count: usize) {
    let room = count.min(MOST_VALUES + 1);
    for (sum, out) in [(1, room), (2, room + 3), (0, room.saturating_sub(1))] {
        let memory = vec![STALE_VALUE; room + 3];
        both::constant(
            context,
            value,
            count,
            &[STALE_VALUE; 2][..sum],
            &memory[..out],
        );
    }
    let float = f32::from_bits(value);
    let mut out = vec![0.0; room];
    let drawn = library::pmc_mean::grid(float, count, &mut out);
    let drawn = numbered(drawn.map(|()| out.iter().map(|value| value.to_bits()).collect()));
    let mut paper = vec![0; room];
    let grid = oracle::paper::pmc_mean::grid(value, count, &mut paper);
    let input = || format!("safe PMC {value:08X} for {count} values");
    context.same("safe grid", grid.map(|()| paper), drawn, input);
    let sum = library::pmc_mean::sum(count, float);
    let paper = oracle::paper::pmc_mean::sum(count, value);
    context.same("safe sum", paper, numbered(sum.map(f32::to_bits)), input);
}

/// A line's sums and grid into outputs just long enough, with places to spare, and too short.
fn by_each_call(context: &mut Context, ends: Ends, times: &[i64]) {
    let count = times.len();
    let out = vec![STALE_VALUE; count + 2];
    let (drew, grid) = both::drawn(context, GRID, ends, times, &out[..count]);
    let (added, sum) = both::drawn(context, SUM_OVER, ends, times, &out[..1]);
    let (took, average) = both::average(context, ends, count, &out[..1]);
    both::drawn(context, GRID, ends, times, &out);
    both::drawn(context, GRID, ends, times, &out[..count.saturating_sub(1)]);
    both::drawn(context, SUM_OVER, ends, times, &[]);
    both::average(context, ends, count, &[]);
    let answers = (
        answer(drew, grid.clone()),
        answer(added, sum[0]),
        answer(took, average[0]),
    );
    by_the_safe_calls(context, ends, times, answers);
    let ((start, end), (first, last)) = ends;
    let are_its_own = times.first() == Some(&start) && times.last() == Some(&end);
    if are_its_own && drew == Fault::ACCEPTED && !swing::is_no_line(first, last) {
        let is_regular = swing::is_regular(times);
        let sum = if is_regular { average[0] } else { sum[0] };
        swing::beside_the_rust(context, fit::line(ends), times, (Ok(sum), &grid));
    }
}

/// What a call answered.
fn answer<A>(fault: Fault, answer: A) -> Answer<A> {
    match fault.number {
        0 => Ok(answer),
        number => Err(number),
    }
}

type Answers = (Answer<Vec<u32>>, Answer<u32>, Answer<u32>);

/// The safe calls: the grid, the sum over the times and the sum by average.
fn by_the_safe_calls(context: &mut Context, ends: Ends, times: &[i64], answers: Answers) {
    let ((start_time, end_time), (first, last)) = ends;
    let line = Line {
        start_time,
        end_time,
        first_value: f32::from_bits(first),
        last_value: f32::from_bits(last),
    };
    let mut out = vec![STALE_VALUE; times.len()];
    let drawn = library::swing::grid_bits(line, times, &mut out);
    let said = (
        numbered(drawn).map(|()| out),
        numbered(library::swing::sum_over_bits(line, times)),
        numbered(library::swing::sum_by_average_bits(line, times.len())),
    );
    let input = || format!("safe calls of {ends:X?} at {times:?}");
    context.same("safe calls", answers, said, input);
}
