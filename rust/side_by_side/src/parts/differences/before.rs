//! Segments that the published text wrote, read here and there: what docs/DIFFERENCES.md says of segments stored
//! before.

use crate::context::Context;
use crate::face::placed;
use crate::parts::segments::decoded;
use crate::parts::swing::{is_no_line, is_regular};
use modelardb_rattle as library;
use oracle::builds::ARE_DEBUG;
use oracle::faults::caught;
use oracle::paper::MOST_VALUES;
use oracle::paper::macaque_v::Opening;
use oracle::paper::models::ErrorBound::{self, Lossless};
use oracle::paper::numbers::canonical;
use oracle::paper::refusal::{LIMIT, NO_MODEL};
use oracle::paper::segments::Segment;
use oracle::paper::types::{Extremes, Model, PMC_MEAN_ID, SWING_ID};
use oracle::rust::{Calls, SegmentBytes};

/// The number of a segment that holds a stream there.
const MACAQUE_V_ID: u32 = 2;

pub fn before(context: &mut Context) {
    for rust in context.rust.iter().filter(|rust| !rust.is_filled()) {
        each(context, rust, 60_000, of_a_model);
        each(context, rust, 20_000, of_a_stream);
        in_parts(context, rust);
    }
}

fn each(context: &mut Context, rust: &Calls, rounds: u64, run: fn(&mut Context, &Calls)) {
    for _ in 0..context.rounds(rounds) {
        run(context, rust);
    }
}

/// A segment of PMC-Mean or Swing that the text wrote.
struct Old<'a> {
    rust: &'a Calls,
    model: Model,
    bound: ErrorBound,
    residuals: Vec<u32>,
    stored: SegmentBytes,
    times: Vec<i64>,
}

impl Old<'_> {
    /// How many timestamps are the model's.
    fn owned(&self) -> usize {
        self.times.len() - self.residuals.len()
    }

    fn input(&self) -> String {
        let (model, bound, residuals) = (self.model, self.bound, &self.residuals);
        let (stored, times) = (&self.stored, &self.times);
        format!("{model:X?} {bound:?} {residuals:08X?}, {stored:X?} at {times:?}")
    }
}

fn of_a_model(context: &mut Context, rust: &Calls) {
    let most = context.inputs.pick(&[0, 1, 3, 20, 255]);
    let count = context.inputs.below(most + 1) as usize;
    let residuals = context.inputs.values(count);
    let bound = context.inputs.bound_for(&residuals);
    let model = any_model(context);
    let owned = 2 + context.inputs.below(12) as usize;
    let times = context.inputs.times(owned + count);
    let Some(stored) = caught(|| (rust.segment_write)(model, bound, &residuals)) else {
        is_a_negative_shift(context, bound, &residuals);
        return;
    };
    let old = Old {
        rust,
        model,
        bound,
        residuals,
        stored,
        times,
    };
    read_here(context, &old);
}

/// 2: The only fault of the text's writer: a lossy one of a debug build.
fn is_a_negative_shift(context: &mut Context, bound: ErrorBound, values: &[u32]) {
    let is_listed = ARE_DEBUG && bound != Lossless;
    let input = || format!("{bound:?} {values:08X?}");
    context.same("a fault", true, is_listed, input);
}

/// 6: A line that runs off is refused, and nothing else.
fn read_here(context: &mut Context, old: &Old) {
    let ends = decoded(old.model.id, old.stored.extremes, &old.stored.values);
    let ends = ends.expect("parameters of a form that the text writes");
    let runs_off = old.model.id == SWING_ID && is_no_line(ends.0, ends.1);
    let mut out = vec![0; old.times.len()];
    let ours = of_library(old.model.id, &old.stored);
    let drawn = placed(ours.grid_bits(&old.times, &mut out));
    let listed = if runs_off {
        Err(NO_MODEL.into())
    } else {
        Ok(())
    };
    context.same("library", listed, drawn, || old.input());
    if drawn == Ok(()) && !runs_off {
        beside_the_text(context, old, ends, &out);
        sums(context, old, &ours);
    }
}

/// 3 and 7: There the residuals are opened on the last drawn value, payload and all. 5: A model that was not read
/// back is lost, and the residuals with it; all others are here as they were written.
fn beside_the_text(context: &mut Context, old: &Old, ends: (u32, u32), out: &[u32]) {
    let segment = as_read(old.model.id, &old.stored, &old.times);
    let theirs = (old.rust.segment_grid)(segment).expect("a grid");
    let (drawn, residuals) = theirs.split_at(old.owned());
    let (our_drawn, our_residuals) = out.split_at(old.owned());
    let input = || old.input();
    let of_model: Vec<u32> = drawn.iter().map(|&bits| canonical(bits)).collect();
    context.same("model", our_drawn, &of_model[..], input);
    let last = drawn[drawn.len() - 1];
    context.same_or(last != ends.1, "residuals", our_residuals, residuals, input);
    let on_the_last = residuals_on(last, &old.stored.residuals);
    context.same("on the drawn value", &on_the_last[..], residuals, input);
    if old.bound == Lossless && ends == (old.model.first_value, old.model.last_value) {
        context.same("as written", &old.residuals[..], our_residuals, input);
    }
}

/// 4: The sum of a line with residuals is another there. 8: The others are in the form that the times pick.
fn sums(context: &mut Context, old: &Old, ours: &library::Segment) {
    if old.model.id == PMC_MEAN_ID || old.residuals.is_empty() {
        let segment = as_read(old.model.id, &old.stored, &old.times);
        let sum = sum_there(ours, &old.times, old.owned());
        context.same("sum", sum, (old.rust.segment_sum)(segment), || old.input());
    }
}

/// A segment's residuals as the library reads their stream on a value.
fn residuals_on(value: u32, residuals: &[u8]) -> Vec<u32> {
    let Some((&count, stream)) = residuals.split_last() else {
        return vec![];
    };
    let (mut out, opening) = (vec![0; count.into()], library::Opening::on_bits(value));
    let read = library::macaque_v::grid_bits(stream, out.len(), opening, &mut out);
    read.expect("a stream that the text wrote");
    out
}

/// The library's sum in the form that the text would pick.
fn sum_there(segment: &library::Segment, times: &[i64], owned: usize) -> Option<u32> {
    let sum = if is_regular(&times[..owned]) {
        segment.sum_by_average_bits(times)
    } else {
        segment.sum_over_bits(times)
    };
    sum.ok()
}

/// Any model, NaNs with their payloads.
fn any_model(context: &mut Context) -> Model {
    let id = context.inputs.below(2) as u32;
    let first_value = context.inputs.value();
    let last_value = match id {
        PMC_MEAN_ID => first_value,
        _ => context.inputs.value(),
    };
    Model {
        id,
        length: 1,
        first_value,
        last_value,
        bytes_per_value: 0,
    }
}

/// 8: The stream of a segment of model 2 is read by the calls on streams.
fn of_a_stream(context: &mut Context, rust: &Calls) {
    let count = 1 + context.inputs.below(40) as usize;
    let values = context.inputs.values(count);
    let (bound, times) = (
        context.inputs.bound_for(&values),
        context.inputs.times(count),
    );
    let write = || (rust.write)(bound, &[(Opening::WithFirst, &values)]).bytes;
    let Some(stream) = caught(write) else {
        is_a_negative_shift(context, bound, &values);
        return;
    };
    let stored = SegmentBytes {
        extremes: Extremes::of_model(0, 0),
        values: stream,
        residuals: vec![],
    };
    let input = || format!("{bound:?} {values:08X?}, {:02X?}", stored.values);
    let segment = as_read(MACAQUE_V_ID, &stored, &times);
    let mut out = vec![0; count];
    let refused = of_library(MACAQUE_V_ID, &stored).grid_bits(&times, &mut out);
    context.same("library", Err(LIMIT.into()), placed(refused), input);
    let (bytes, first) = (&stored.values, library::Opening::First);
    let drawn = library::macaque_v::grid_bits(bytes, count, first, &mut out).map(|()| out);
    context.same("stream", drawn.ok(), (rust.segment_grid)(segment), input);
    let sum = library::macaque_v::sum_bits(bytes, count, first);
    context.same("stream's sum", sum.ok(), (rust.segment_sum)(segment), input);
}

/// 9: A line of more values than a call takes, drawn in two parts.
fn in_parts(context: &mut Context, rust: &Calls) {
    let times: Vec<i64> = (0..=MOST_VALUES as i64).map(|time| 10 * time).collect();
    let stored = SegmentBytes {
        extremes: Extremes::of_model(1f32.to_bits(), 2f32.to_bits()),
        values: vec![],
        residuals: vec![],
    };
    let line = library::Line {
        start_time: times[0],
        end_time: times[MOST_VALUES],
        first_value: 1.0,
        last_value: 2.0,
    };
    let mut out = vec![0; times.len()];
    for (times, out) in times.chunks(MOST_VALUES).zip(out.chunks_mut(MOST_VALUES)) {
        let drawn = library::swing::grid_bits(line, times, out);
        drawn.expect("no more times than a call takes");
    }
    let theirs = (rust.segment_grid)(as_read(SWING_ID, &stored, &times));
    context.same("in parts", Some(out), theirs, || {
        format!("{line:?} in parts")
    });
}

fn of_library(model_type_id: u32, stored: &SegmentBytes) -> library::Segment {
    library::Segment {
        model_type_id,
        min_value_bits: stored.extremes.min_value,
        max_value_bits: stored.extremes.max_value,
        values: stored.values.clone(),
        residuals: stored.residuals.clone(),
    }
}

fn as_read<'a>(model: u32, stored: &'a SegmentBytes, timestamps: &'a [i64]) -> Segment<'a> {
    Segment {
        model,
        timestamps,
        extremes: stored.extremes,
        values: &stored.values,
        residuals: &stored.residuals,
    }
}
