//! Calls that read a segment.

use super::super::both;
use super::of_parts::{FORMS, MODELS};
use crate::context::Context;
use crate::lent::STALE_VALUE;
use crate::order::in_order;
use modelardb_rattle::ffi::StoredSegment;
use oracle::paper::refusal::{
    COUNTS, ENDS_EARLY, FORM, LEFTOVER, LIMIT, NO_WINDOW, OUTPUT, TIMES, WINDOW,
};
use oracle::paper::{MOST_VALUES, TIME_LIMIT};

/// Residual bytes, how many residuals they count, and the cause. Streams are those of the paper's marked
/// cases: their refusals do not depend on the opening value.
const RESIDUALS: [(&[u8], usize, u32); 15] = [
    (&[], 0, 0),
    (&[0x80, 1], 1, 0),
    (&[0xA0, 2], 2, 0),
    (&[0xFE, 0x0C, 1], 1, 0),
    (&[0], 0, FORM),
    (&[0x80, 0], 0, FORM),
    (&[1], 1, ENDS_EARLY),
    (&[0xC0, 1], 1, ENDS_EARLY),
    (&[0x00, 1], 1, NO_WINDOW),
    (&[0x80, 2], 2, NO_WINDOW),
    (&[0xFE, 0x10, 1], 1, WINDOW),
    (&[0xC0, 0x00, 1], 1, WINDOW),
    (&[0xA0, 1], 1, LEFTOVER),
    (&[0x80, 0x00, 1], 1, LEFTOVER),
    (&[0x80, 255], 255, NO_WINDOW),
];

pub fn causes(context: &mut Context) {
    let many: Vec<i64> = (0..=MOST_VALUES as i64).collect();
    for (at, (residuals, count, of_stream)) in RESIDUALS.into_iter().enumerate() {
        let mut lists = lists(count);
        // The long ones with some of the streams only.
        if at % 5 == 0 {
            lists.extend([MOST_VALUES, MOST_VALUES + 1].map(|total| (many[..total].to_vec(), 0)));
        }
        for (values, extremes, of_form) in FORMS {
            for (model, of_model) in MODELS {
                let segment = StoredSegment {
                    model,
                    extremes,
                    values,
                    residuals,
                };
                // Of a model that there is not, 3 comes before what its bytes bring.
                let of_form = of_form.get(model as usize).copied().unwrap_or(0);
                for (times, of_times) in &lists {
                    let causes = [of_model, of_stream, of_form, *of_times];
                    of_segment(context, segment, count, times, &causes);
                }
            }
        }
    }
}

/// Timestamps of every number about the residuals' count, with the cause.
fn lists(count: usize) -> Vec<(Vec<i64>, u32)> {
    let less = count.saturating_sub(1);
    let totals = [0, less, count, count + 1, count + 2, count + 4];
    totals.into_iter().flat_map(lists_of).collect()
}

/// So many of them: from 0 and from the least time that is allowed; with the first or the last beyond a
/// limit; with the last two equal, or falling.
fn lists_of(total: usize) -> Vec<(Vec<i64>, u32)> {
    let from = |start: i64| -> Vec<i64> { (start..start + total as i64).collect() };
    let (times, mut lists) = (from(0), vec![(from(0), 0), (from(-TIME_LIMIT), 0)]);
    let mut with = |at: usize, time| {
        let mut times = times.clone();
        times[at] = time;
        lists.push((times, TIMES));
    };
    if total > 0 {
        with(0, -TIME_LIMIT - 1);
        with(total - 1, TIME_LIMIT + 1);
        with(total - 1, i64::MIN);
    }
    if total > 1 {
        with(total - 1, total as i64 - 2);
        with(total - 1, -1);
    }
    lists
}

/// The grid and both sums, in rooms too short, just enough and longer.
fn of_segment(
    context: &mut Context,
    segment: StoredSegment,
    count: usize,
    times: &[i64],
    causes: &[u32],
) {
    let total = times.len();
    let is_no_line = segment.model == 1 && total == count + 1;
    let own = [
        if total > MOST_VALUES { LIMIT } else { 0 },
        if total <= count { COUNTS } else { 0 },
        if is_no_line { TIMES } else { 0 },
    ];
    let causes = [causes, &own].concat();
    let (grid, sum) = ([total.saturating_sub(1), total, total + 2], [0, 1, 2]);
    let calls = [
        (both::GRID, grid, total),
        (both::BY_AVERAGE, sum, 1),
        (both::OVER, sum, 1),
    ];
    for (call, rooms, needed) in calls {
        for room in rooms {
            let short = if room < needed { OUTPUT } else { 0 };
            let out = vec![STALE_VALUE; room];
            let (fault, _) = both::read(context, call, segment, times, &out);
            in_order(context, &[&causes[..], &[short]].concat(), fault, || {
                format!("reading {segment:X?} at {total} times, room {room}")
            });
        }
    }
}
