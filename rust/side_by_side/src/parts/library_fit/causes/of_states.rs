//! Calls on a state.

use super::super::kinds::{BUILDER, Kind, PMC_MEAN, SWING};
use super::super::{both, metadata};
use crate::context::Context;
use crate::inputs::ONE;
use crate::lent::{STALE_VALUE, STALE_WORD};
use crate::order::{BOUNDS, FEW_BOUNDS, in_order, lengths, of_row, rooms};
use modelardb_rattle::ffi::Words;
use oracle::paper::refusal::{LIMIT, NO_MODEL, OUTPUT, STATE, TIMES};
use oracle::paper::{MOST_VALUES, TIME_LIMIT};

/// The greatest length.
const MOST: u64 = MOST_VALUES as u64;

/// A state's length and times, and the cause that they bring to any call of Swing.
#[derive(Clone, Copy, Debug)]
struct State {
    length: u64,
    start: i64,
    end: i64,
    cause: u32,
}

const fn state(length: u64, start: i64, end: i64, cause: u32) -> State {
    State {
        length,
        start,
        end,
        cause,
    }
}

/// Of PMC-Mean's states only the lengths count.
const STATES: [State; 14] = [
    state(0, 5, 3, 0),
    state(0, i64::MIN, i64::MAX, 0),
    state(1, 5, 5, 0),
    state(1, 5, 6, STATE),
    state(1, TIME_LIMIT + 1, TIME_LIMIT + 1, STATE),
    state(2, -TIME_LIMIT, 6, 0),
    state(2, 5, 5, STATE),
    state(2, 6, 5, STATE),
    state(2, -TIME_LIMIT - 1, 6, STATE),
    state(2, 5, TIME_LIMIT + 1, STATE),
    state(MOST - 1, 5, 6, 0),
    state(MOST, 5, 6, 0),
    state(MOST + 1, 5, 6, STATE),
    state(u64::MAX, 5, 6, STATE),
];

impl State {
    /// The cause of PMC-Mean's state of that length.
    fn cause_of_length(self) -> u32 {
        if self.length > MOST { STATE } else { 0 }
    }

    fn if_full(self) -> u32 {
        if self.length == MOST { LIMIT } else { 0 }
    }

    fn if_empty(self) -> u32 {
        if self.length == 0 { NO_MODEL } else { 0 }
    }

    /// The cause that a time brings to a step of Swing.
    fn if_early(self, time: i64) -> u32 {
        let is_early = self.length > 0 && time <= self.end;
        if is_early { TIMES } else { of_time(time) }
    }

    fn pmc_mean_row(self, (kind, bits): Words) -> Vec<u64> {
        let (one, sum) = (ONE.into(), 1f64.to_bits());
        vec![kind.into(), bits.into(), one, one, sum, self.length, 1]
    }

    fn swing_row(self, (kind, bits): Words) -> Vec<u64> {
        let mut row = vec![kind.into(), bits.into(), self.start as u64, self.end as u64];
        row.extend([1f64.to_bits(); 7]);
        row.extend([self.length, 1]);
        row
    }
}

/// Times within the limits and beyond them.
const TIMES_GIVEN: [i64; 7] = [
    i64::MIN,
    -TIME_LIMIT - 1,
    5,
    6,
    7,
    TIME_LIMIT,
    TIME_LIMIT + 1,
];

/// The cause that a time brings to any step.
fn of_time(time: i64) -> u32 {
    if (-TIME_LIMIT..=TIME_LIMIT).contains(&time) {
        0
    } else {
        TIMES
    }
}

/// A step of each model.
pub fn steps(context: &mut Context) {
    for (bound, cause) in BOUNDS {
        for state in STATES {
            for time in TIMES_GIVEN {
                let causes = [cause, state.cause_of_length(), state.if_full()];
                step(context, &PMC_MEAN, state.pmc_mean_row(bound), time, &causes);
                let causes = [cause, state.cause, state.if_full(), state.if_early(time)];
                step(context, &SWING, state.swing_row(bound), time, &causes);
            }
        }
    }
}

fn step(context: &mut Context, kind: &Kind, row: Vec<u64>, time: i64, causes: &[u32]) {
    for length in lengths(kind.words) {
        let row = resized(&row, length);
        let (fault, _) = both::step(context, kind, &row, (time, ONE));
        let causes = of_row(length, kind.words, causes);
        in_order(context, &causes, fault, || {
            format!("{} step at {time} of {row:X?}", kind.name)
        });
    }
}

/// The row in memory of another length.
fn resized(row: &[u64], length: usize) -> Vec<u64> {
    let mut row = row.to_vec();
    row.resize(length, STALE_WORD);
    row
}

/// Cost and model of each model.
pub fn asks(context: &mut Context) {
    for (bound, cause) in BOUNDS {
        for state in STATES {
            let (of_length, empty) = (state.cause_of_length(), state.if_empty());
            let causes = [cause, of_length, empty];
            ask(context, &PMC_MEAN, state.pmc_mean_row(bound), &causes);
            let causes = [cause, state.cause, empty];
            ask(context, &SWING, state.swing_row(bound), &causes);
        }
    }
}

fn ask(context: &mut Context, kind: &Kind, row: Vec<u64>, causes: &[u32]) {
    for (at, ask) in kind.asks.iter().enumerate() {
        for (m, over) in metadata::judged() {
            // Only the cost looks at M.
            let over = if at == 0 { over } else { 0 };
            for (room, short_out) in rooms(ask.words) {
                for length in lengths(kind.words) {
                    let row = resized(&row, length);
                    let out = vec![STALE_VALUE; room];
                    let (fault, _) = both::ask(context, ask, &row, m, &out);
                    let causes = [causes, &[over, short_out]].concat();
                    let causes = of_row(length, kind.words, &causes);
                    in_order(context, &causes, fault, || {
                        format!("{} of {row:X?}, M {m}, room {room}", ask.name)
                    });
                }
            }
        }
    }
}

/// A model in a builder: its flag, and the causes that it brings to a step and to the choice.
fn causes_of(flag: u64, is_live: bool, of_step: &[u32], of_choice: &[u32]) -> [Vec<u32>; 2] {
    let no_flag = if flag > 1 { STATE } else { 0 };
    let of_step = if is_live { of_step } else { &[] };
    [
        [of_step, &[no_flag]].concat(),
        [of_choice, &[no_flag]].concat(),
    ]
}

/// A step and the choice of a builder: after a model's first failure its bound, state, length and time
/// cause no refusal of a step.
pub fn builders(context: &mut Context) {
    for (bound, of_bound) in FEW_BOUNDS {
        for (other_bound, of_other) in [BOUNDS[0], BOUNDS[6]] {
            for state in STATES {
                for other in STATES {
                    for flags in [(0, 0), (0, 1), (1, 0), (1, 1), (2, 0), (0, u64::MAX)] {
                        let bounds = [(bound, of_bound), (other_bound, of_other)];
                        builder(context, bounds, [state, other], flags);
                    }
                }
            }
        }
    }
}

fn builder(
    context: &mut Context,
    [(bound, of_bound), (other_bound, of_other)]: [(Words, u32); 2],
    [pmc_mean, swing]: [State; 2],
    (flag, other_flag): (u64, u64),
) {
    let mut row = pmc_mean.pmc_mean_row(bound);
    row[6] = flag;
    row.extend(swing.swing_row(other_bound));
    row[19] = other_flag;
    // A word that is no flag makes no model a failed one.
    let all_live = flag > 1 || other_flag > 1;
    for time in [-TIME_LIMIT - 1, 6, 7] {
        let of_length = pmc_mean.cause_of_length();
        let [mut step, mut choice] = causes_of(
            flag,
            flag == 1 || all_live,
            &[of_bound, of_length, pmc_mean.if_full()],
            &[of_bound, of_length, pmc_mean.if_empty()],
        );
        let [swing_step, swing_choice] = causes_of(
            other_flag,
            other_flag == 1 || all_live,
            &[of_other, swing.cause, swing.if_full(), swing.if_early(time)],
            &[of_other, swing.cause, swing.if_empty()],
        );
        step.extend(swing_step);
        step.push(of_time(time));
        choice.extend(swing_choice);
        let (fault, _) = both::step(context, &BUILDER, &row, (time, ONE));
        let input = || format!("builder {row:X?} at {time}");
        in_order(context, &step, fault, input);
        let m = if time == 6 { metadata::MOST + 1 } else { 12 };
        choice.push(if m > metadata::MOST { LIMIT } else { 0 });
        for (room, short) in [(4, OUTPUT), (5, 0), (6, 0)] {
            let (fault, _) = both::finish(context, &row, m, &vec![STALE_WORD; room]);
            let causes = [&choice[..], &[short]].concat();
            in_order(context, &causes, fault, input);
        }
    }
    // A row too short stands for no builder; the bounds that are in it are judged, whatever failed.
    for length in [0, 1, 2, 6, 7, 8, 9, 19] {
        let of_other = if length < 9 { 0 } else { of_other };
        let causes = of_row(length, 20, &[of_bound.max(of_other)]);
        let row = &row[..length];
        let (fault, _) = both::step(context, &BUILDER, row, (7, ONE));
        in_order(context, &causes, fault, || {
            format!("builder of {length} words")
        });
        let (fault, _) = both::finish(context, row, 0, &[STALE_WORD; 5]);
        in_order(context, &causes, fault, || {
            format!("choice of {length} words")
        });
    }
}
