//! Calls on lists and lines.

use super::super::both::{self, GRID, SUM_OVER};
use super::super::metadata;
use crate::context::Context;
use crate::inputs::{INFINITY, NAN, ONE, TWO};
use crate::lent::{STALE_VALUE, STALE_WORD};
use crate::order::{FEW_BOUNDS, in_order, rooms};
use modelardb_rattle::ffi::{Ends, SELECTED_MODEL_WORDS};
use oracle::paper::refusal::{COUNTS, LIMIT, NO_MODEL, OUTPUT, TIMES};
use oracle::paper::{MOST_VALUES, TIME_LIMIT};

/// How many times and values are handed in.
const LENGTHS: [(usize, usize); 9] = [
    (0, 0),
    (0, 3),
    (3, 0),
    (3, 3),
    (3, 4),
    (4, 3),
    (MOST_VALUES + 1, MOST_VALUES + 1),
    (MOST_VALUES + 1, 3),
    (3, MOST_VALUES + 1),
];

/// The whole rule: the last of the times is in order, equal to the one before, or beyond the limit. Both
/// models fail at the second value: times behind that are judged too.
pub fn choices(context: &mut Context) {
    for (times, values) in LENGTHS {
        let of_lengths = [
            if values > MOST_VALUES { LIMIT } else { 0 },
            if times != values { COUNTS } else { 0 },
            if times == 0 { NO_MODEL } else { 0 },
        ];
        let list: Vec<u32> = (0..values)
            .map(|at| if at == 1 { NAN } else { ONE })
            .collect();
        for last in [None, Some(times as i64 - 2), Some(TIME_LIMIT + 1)] {
            let mut at: Vec<i64> = (0..times as i64).collect();
            let mut of_times = 0;
            if let (Some(time), Some(place)) = (last, at.last_mut()) {
                (*place, of_times) = (time, TIMES);
            }
            for (bound, of_bound) in FEW_BOUNDS {
                for (m, of_size) in metadata::judged().into_iter().step_by(3) {
                    for (room, short) in rooms(SELECTED_MODEL_WORDS) {
                        let out = vec![STALE_WORD; room];
                        let (fault, _) = both::choose(context, (&at, &list), (bound, m), &out);
                        let others = [of_bound, of_size, short, of_times];
                        let causes = [&of_lengths[..], &others].concat();
                        let lengths = (times, values);
                        in_order(context, &causes, fault, || {
                            format!("choice {lengths:?} {last:?} {bound:X?} M {m} room {room}")
                        });
                    }
                }
            }
        }
    }
}

/// Times of a line's ends, and the cause.
const END_TIMES: [((i64, i64), u32); 6] = [
    ((0, 10), 0),
    ((-TIME_LIMIT, TIME_LIMIT), 0),
    ((10, 10), TIMES),
    ((10, 0), TIMES),
    ((-TIME_LIMIT - 1, 10), TIMES),
    ((0, TIME_LIMIT + 1), TIMES),
];

/// Values of a line's ends, and the cause.
const END_VALUES: [((u32, u32), u32); 7] = [
    ((ONE, TWO), 0),
    ((0, 0x8000_0000), 0),
    ((NAN, 0xFFC1_2345), 0),
    ((INFINITY, INFINITY), 0),
    ((ONE, INFINITY), NO_MODEL),
    ((NAN, ONE), NO_MODEL),
    ((INFINITY, 0xFF80_0000), NO_MODEL),
];

/// Sums and grids of lines.
pub fn lines(context: &mut Context) {
    let many: Vec<i64> = (0..=MOST_VALUES as i64).collect();
    let lists: [(&[i64], u32); 9] = [
        (&[], 0),
        (&[5], 0),
        (&[-TIME_LIMIT, 0, TIME_LIMIT], 0),
        (&[-TIME_LIMIT - 1, 0], TIMES),
        (&[0, 1, TIME_LIMIT + 1], TIMES),
        (&[0, 1, 1], TIMES),
        (&[1, 0], TIMES),
        (&many[1..], 0),
        (&many, LIMIT),
    ];
    for (times, of_times) in END_TIMES {
        for (values, of_values) in END_VALUES {
            let (ends, of_ends) = ((times, values), [of_times, of_values]);
            for (list, of_list) in lists {
                over_list(context, ends, list, &[of_ends[0], of_ends[1], of_list]);
            }
            for (count, over) in [
                (0, 0),
                (3, 0),
                (MOST_VALUES, 0),
                (MOST_VALUES + 1, LIMIT),
                (usize::MAX, LIMIT),
            ] {
                for (room, short) in [(0, OUTPUT), (1, 0), (2, 0)] {
                    let out = vec![STALE_VALUE; room];
                    let (fault, _) = both::average(context, ends, count, &out);
                    let causes = [of_times, of_values, over, short];
                    in_order(context, &causes, fault, || {
                        format!("average of {ends:X?} for {count}, room {room}")
                    });
                }
            }
        }
    }
}

fn over_list(context: &mut Context, ends: Ends, times: &[i64], causes: &[u32]) {
    let count = times.len();
    let input = |room| move || format!("line {ends:X?}, {count} times, room {room}");
    for (room, short) in [(0, OUTPUT), (1, 0), (2, 0)] {
        let out = vec![STALE_VALUE; room];
        let (fault, _) = both::drawn(context, SUM_OVER, ends, times, &out);
        in_order(context, &[causes, &[short]].concat(), fault, input(room));
    }
    for room in [count.saturating_sub(1), count, count + 2] {
        let short = if room < count { OUTPUT } else { 0 };
        let out = vec![STALE_VALUE; room];
        let (fault, _) = both::drawn(context, GRID, ends, times, &out);
        in_order(context, &[causes, &[short]].concat(), fault, input(room));
    }
}
