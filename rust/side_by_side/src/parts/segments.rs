//! Segments: written, read into a grid and summed.

use crate::context::Context;
use crate::parts::swing::{is_no_line, is_regular};
use crate::shape;
use oracle::paper::Fault;
use oracle::paper::macaque_v::Opening;
use oracle::paper::models::ErrorBound::{self, Lossless};
use oracle::paper::numbers::{bits_of_f32, canonical};
use oracle::paper::refusal;
use oracle::paper::segments::{Segment, write};
use oracle::paper::swing::Line;
use oracle::paper::types::{
    Extremes, Model, PMC_MEAN_ID, SWING_ID, decode_values_for_pmc_mean, decode_values_for_swing,
};
use oracle::rust::{Calls, SegmentBytes};

pub fn segments(context: &mut Context) {
    for _ in 0..context.rounds(80_000) {
        let most = context.inputs.pick(&[0, 1, 3, 20, 255]);
        let count = context.inputs.below(most + 1) as usize;
        let residuals = context.inputs.values(count);
        let bound = context.inputs.bound_for(&residuals);
        let model = any_model(context);
        let bytes = written(model, bound, &residuals);
        compare_writing(context, model, bound, &residuals, &bytes);
        let owned = usize::from(model.id == SWING_ID) + 1 + context.inputs.below(12) as usize;
        let timestamps = context.inputs.times(owned + count);
        let segment = Segment {
            model: model.id,
            timestamps: &timestamps,
            extremes: bytes.extremes,
            values: &bytes.values,
            residuals: &bytes.residuals,
        };
        compare_reading(context, segment);
        damaged(context, segment);
    }
}

/// The same segment with a byte of its parameters, of its residuals or its count byte changed: what
/// the paper still accepts must be read alike.
fn damaged(context: &mut Context, segment: Segment) {
    let (mut values, mut residuals) = (segment.values.to_vec(), segment.residuals.to_vec());
    let word = context.inputs.word();
    match context.inputs.below(3) {
        0 => values
            .iter_mut()
            .take(1)
            .for_each(|byte| *byte = word as u8 % 8),
        1 => residuals
            .iter_mut()
            .take(2)
            .for_each(|byte| *byte ^= 1 << (word % 8)),
        _ => residuals
            .iter_mut()
            .rev()
            .take(1)
            .for_each(|byte| *byte ^= 1),
    }
    let segment = Segment {
        values: &values,
        residuals: &residuals,
        ..segment
    };
    compare_reading(context, segment);
}

fn any_model(context: &mut Context) -> Model {
    let id = context.inputs.below(2) as u32;
    let first_value = context.inputs.value();
    let last_value = match id {
        PMC_MEAN_ID => first_value,
        _ => context.inputs.value(),
    };
    Model {
        id,
        length: 1,
        first_value: canonical(first_value),
        last_value: canonical(last_value),
        bytes_per_value: 0,
    }
}

fn written(model: Model, bound: ErrorBound, residuals: &[u32]) -> SegmentBytes {
    let (mut values, mut stream) = (vec![0; 8], vec![0; 6 * residuals.len() + 1]);
    let ends = (model.first_value, model.last_value);
    let written = write(model.id, ends, bound, residuals, &mut values, &mut stream);
    let written = written.expect("room for both outputs");
    values.truncate(written.values_length);
    stream.truncate(written.residuals_length);
    SegmentBytes {
        extremes: written.extremes,
        values,
        residuals: stream,
    }
}

/// The segment by the first rules beside those of the Rust's text. Listed: a form that does not read back;
/// rewriting by log2 and the signs of zeros in the published text.
pub fn compare_writing(
    context: &mut Context,
    model: Model,
    bound: ErrorBound,
    residuals: &[u32],
    bytes: &SegmentBytes,
) {
    let input = || format!("segment of {model:X?} {:X?} {residuals:08X?}", bound.row());
    let bytes = context.first(bytes, || written(model, bound, residuals));
    for rust in context.rust {
        let theirs = (rust.segment_write)(model, bound, residuals);
        let lossy = !rust.is_filled() && bound != Lossless;
        context.same_or(lossy, rust.name, &bytes.residuals, &theirs.residuals, input);
        let ours = (as_floats(bytes.extremes), &bytes.values);
        let their_parameters = (as_floats(theirs.extremes), &theirs.values);
        let is_listed = lossy || decoded(model.id, bytes.extremes, &theirs.values) != ends(model);
        context.same_or(is_listed, rust.name, ours, their_parameters, input);
        if rust.is_filled() {
            context.same(rust.name, bytes.extremes, theirs.extremes, input);
        }
    }
}

fn ends(model: Model) -> Option<(u32, u32)> {
    Some((model.first_value, model.last_value))
}

/// What parameter bytes give; PMC-Mean's one value twice.
pub fn decoded(model: u32, extremes: Extremes, values: &[u8]) -> Option<(u32, u32)> {
    if model == PMC_MEAN_ID {
        let value = decode_values_for_pmc_mean(extremes, values).ok()?;
        Some((value, value))
    } else {
        decode_values_for_swing(extremes, values).ok()
    }
}

/// Extremes up to the signs of zeros and the bits of NaNs.
fn as_floats(extremes: Extremes) -> [u32; 2] {
    let float = |bits: u32| bits_of_f32(f32::from_bits(bits) + 0.0);
    [float(extremes.min_value), float(extremes.max_value)]
}

/// How a segment of valid times is refused: 12, 10, 9, 11, then 5 to 8 by the shape of its residual stream.
pub fn refusal_of(segment: Segment) -> Option<Fault> {
    let count = usize::from(segment.residuals.last().copied().unwrap_or(0));
    let is_swing = segment.model == SWING_ID;
    let Some(owned) = segment
        .timestamps
        .len()
        .checked_sub(count)
        .filter(|&n| n > 0)
    else {
        return Some(refusal::COUNTS.into());
    };
    if is_swing && owned == 1 {
        return Some(refusal::TIMES.into());
    }
    let is_form = match segment.values.len() {
        0 | 1 => true,
        4 => !is_swing,
        5 => is_swing && segment.values[0] < 4,
        8 => is_swing,
        _ => false,
    };
    if !is_form || (count == 0 && !segment.residuals.is_empty()) {
        return Some(refusal::FORM.into());
    }
    let ends = decoded(segment.model, segment.extremes, segment.values);
    let (first, last) = ends.expect("parameters of a form");
    if is_swing && is_no_line(first, last) {
        return Some(refusal::NO_MODEL.into());
    }
    let stream = &segment.residuals[..segment.residuals.len().saturating_sub(1)];
    shape::refusal_of(stream, count, Opening::On(last))
}

pub fn compare_reading(context: &mut Context, segment: Segment) {
    let mut out = vec![0; segment.timestamps.len()];
    let input = || format!("reading {segment:X?}");
    let refusal = refusal_of(segment);
    let refusals = [
        segment.grid(&mut out).err(),
        segment.sum_by_average().err(),
        segment.sum_over_times().err(),
    ];
    context.same("the segment's shape", refusals, [refusal; 3], input);
    if refusal.is_some() || refusals[0].is_some() {
        return; // Refused here: accepted or a fault there, as listed.
    }
    let count = usize::from(segment.residuals.last().copied().unwrap_or(0));
    let owned = segment.timestamps.len() - count;
    let ends = decoded(segment.model, segment.extremes, segment.values);
    let (first, last) = ends.expect("parameters of a grid");
    let sum = if is_regular(&segment.timestamps[..owned]) {
        segment.sum_by_average().ok()
    } else {
        segment.sum_over_times().ok()
    };
    for rust in context.rust {
        let grid = (rust.segment_grid)(segment).expect("a grid");
        let drawn: Vec<u32> = grid[..owned].iter().map(|&bits| canonical(bits)).collect();
        context.same(rust.name, &out[..owned], &drawn, input);
        // Listed: residuals are opened on the last drawn value there.
        let is_listed = grid[owned - 1] != last;
        context.same_or(is_listed, rust.name, &out[owned..], &grid[owned..], input);
        let theirs = sum_of_parts(rust, segment, owned, (first, last));
        context.same(rust.name, sum, Some(theirs), input);
        if segment.model == PMC_MEAN_ID || count == 0 {
            context.same(rust.name, sum, (rust.segment_sum)(segment), input);
        }
    }
}

/// The sum by the Rust's own calls on the model's part and on the residuals: its whole call runs the
/// line to the last residual's time, as listed.
fn sum_of_parts(rust: &Calls, segment: Segment, owned: usize, ends: (u32, u32)) -> u32 {
    let times = &segment.timestamps[..owned];
    let line = Line {
        start_time: times[0],
        end_time: times[owned - 1],
        first_value: ends.0,
        last_value: ends.1,
    };
    let of_model = match segment.model {
        PMC_MEAN_ID => (rust.pmc_sum)(owned, ends.0),
        _ => (rust.swing_sum)(line, times),
    };
    let Some((&count, stream)) = segment.residuals.split_last() else {
        return of_model;
    };
    let of_residuals = (rust.sum)(stream, count.into(), Opening::On(ends.1));
    let of_residuals = of_residuals.expect("a sum of residuals");
    bits_of_f32(f32::from_bits(of_model) + f32::from_bits(of_residuals))
}
