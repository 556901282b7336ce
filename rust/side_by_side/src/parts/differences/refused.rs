//! Segments that are refused here, and what the Rust's text does with them: groups 9 and 10 on any segments, not
//! on the smallest ones alone.

use crate::context::Context;
use crate::face::placed;
use crate::parts::parameters::any_form;
use crate::parts::segments::{decoded, refusal_of};
use crate::parts::swing::is_no_line;
use crate::shape;
use modelardb_rattle as library;
use oracle::builds::ARE_DEBUG;
use oracle::paper::Fault;
use oracle::paper::macaque_v::Opening;
use oracle::paper::numbers::{NAN_32, canonical, rounded, wide};
use oracle::paper::refusal::{ENDS_EARLY, NO_WINDOW, WINDOW};
use oracle::paper::segments::Segment;
use oracle::paper::swing::{self, Line};
use oracle::paper::types::{PMC_MEAN_ID, SWING_ID};

pub fn refused(context: &mut Context) {
    for _ in 0..context.rounds(50_000) {
        let model = context.inputs.below(2) as u32;
        let (extremes, values) = any_form(context);
        let length = context.inputs.below(8) as usize;
        let mut residuals: Vec<u8> = (0..length).map(|_| context.inputs.word() as u8).collect();
        residuals
            .iter_mut()
            .next_back()
            .into_iter()
            .for_each(|count| *count %= 6);
        let total = 1 + context.inputs.below(6) as usize;
        let segment = Segment {
            model,
            timestamps: &context.inputs.times(total),
            extremes,
            values: &values,
            residuals: &residuals,
        };
        if let Some(refused) = refusal_of(segment) {
            one(context, segment, refused);
        }
    }
}

fn one(context: &mut Context, segment: Segment, refused: Fault) {
    let input = || format!("{refused:?}: {segment:X?}");
    let ours = library::Segment {
        model_type_id: segment.model,
        min_value_bits: segment.extremes.min_value,
        max_value_bits: segment.extremes.max_value,
        values: segment.values.to_vec(),
        residuals: segment.residuals.to_vec(),
    };
    let mut out = vec![0; segment.timestamps.len()];
    let paper = segment.grid(&mut out);
    let ours = placed(ours.grid_bits(segment.timestamps, &mut out));
    context.same("library", [Err(refused); 2], [paper, ours], input);
    let listed = drawn_there(segment);
    for rust in context
        .rust
        .iter()
        .filter(|_| listed != Some(Theirs::Anything))
    {
        let model = |grid: Vec<u32>| {
            grid[..owned(segment)]
                .iter()
                .map(|&bits| canonical(bits))
                .collect()
        };
        let theirs = (rust.segment_grid)(segment).map(|grid| Theirs::Model(model(grid)));
        context.same(rust.name, &listed, &theirs, input);
    }
}

/// What the text draws of a segment's model, NaNs alike; or anything, by the build.
#[derive(Debug, PartialEq)]
enum Theirs {
    Model(Vec<u32>),
    Anything,
}

/// How many timestamps are left for the model.
fn owned(segment: Segment) -> usize {
    let count = segment.residuals.last().map_or(0, |&count| count.into());
    segment.timestamps.len().saturating_sub(count)
}

/// By the list; `None` is a fault: no model value left, a form that there is not, or a residual stream that is
/// empty or ends early. A code 6 or 7 is answered or faults.
fn drawn_there(segment: Segment) -> Option<Theirs> {
    let ends = decoded(segment.model, segment.extremes, segment.values)?;
    let times = &segment.timestamps[..owned(segment)];
    if times.is_empty() || (segment.model == SWING_ID && is_no_line(ends.0, ends.1) && ARE_DEBUG) {
        return None;
    }
    if let Some((&count, stream)) = segment.residuals.split_last() {
        let refused = shape::refusal_of(stream, count.into(), Opening::On(0));
        match refused.map(|refused| refused.number) {
            _ if stream.is_empty() => return None,
            Some(ENDS_EARLY) => return None,
            Some(NO_WINDOW | WINDOW) => return Some(Theirs::Anything),
            _ => {}
        }
    }
    Some(Theirs::Model(model(segment.model, ends, times)))
}

/// The model's values there: a line that is none, or has no length, is NaN all along.
fn model(id: u32, (first, last): (u32, u32), times: &[i64]) -> Vec<u32> {
    let at = |&time: &i64| rounded(0.0 * time as f64 + wide(first));
    let is_flat = wide(first) == wide(last) || (wide(first).is_nan() && wide(last).is_nan());
    if id == PMC_MEAN_ID {
        return vec![first; times.len()];
    }
    if is_flat {
        return times.iter().map(at).collect();
    }
    let line = Line {
        start_time: times[0],
        end_time: times[times.len() - 1],
        first_value: first,
        last_value: last,
    };
    let mut out = vec![NAN_32; times.len()];
    let _ = swing::grid(line, times, &mut out);
    out
}
