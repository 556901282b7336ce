//! The safe calls over the same face, beside the paper's program.

use super::source::Source;
use crate::context::Context;
use crate::face::segments as face;
use crate::face::{numbered, placed};
use crate::parts::segments::decoded;
use modelardb_rattle::ErrorBound::{Absolute, Lossless, Relative};
use modelardb_rattle::ffi::{Pair, StoredSegment};
use modelardb_rattle::{Model, Segment, parameters};
use oracle::paper::refusal;
use oracle::paper::types::PMC_MEAN_ID;

/// A model by its number and the bits of its ends.
fn model_of(model: u32, (first, last): Pair) -> Model {
    let [first, last] = [first, last].map(f32::from_bits);
    match model {
        PMC_MEAN_ID => Model::PMCMean(first),
        _ => Model::Swing(first, last),
    }
}

/// The parameters' bits of a model; PMC-Mean's one twice.
fn ends_of(model: Model) -> Pair {
    match model {
        Model::PMCMean(value) => (value.to_bits(), value.to_bits()),
        Model::Swing(first, last) => (first.to_bits(), last.to_bits()),
    }
}

/// Parameter bytes by the calls on floats: how many they are, and what they read as with the segment's
/// extremes.
pub fn parameters(
    context: &mut Context,
    (model, ends): (u32, Pair),
    [residuals, segment]: [Pair; 2],
    bytes: &[u8],
) {
    let [first, last] = [ends.0, ends.1].map(f32::from_bits);
    let [low, high] = [residuals.0, residuals.1].map(f32::from_bits);
    let [min, max] = [segment.0, segment.1].map(f32::from_bits);
    let mut out = [0; 8];
    let (written, read) = if model == PMC_MEAN_ID {
        let written = parameters::encode_values_for_pmc_mean(first, low, high, &mut out);
        let read = parameters::decode_values_for_pmc_mean(min, max, bytes);
        (written, read.map(|value| (value, value)))
    } else {
        let written = parameters::encode_values_for_swing(first, last, low, high, &mut out);
        let read = parameters::decode_values_for_swing(min, max, bytes);
        (written, read)
    };
    let read = read.map(|(first, last)| (first.to_bits(), last.to_bits()));
    let said = (
        numbered(written).map(|length| &out[..length]),
        numbered(read),
    );
    let paper = decoded(model, face::extremes(segment), bytes).ok_or(refusal::FORM);
    let paper = (Ok(bytes), paper);
    context.same("safe calls", paper, said, || {
        format!("safe parameters of {model} {ends:08X?}, {residuals:08X?}")
    });
}

/// A segment by the safe type: written, or refused as more than 255 residuals are.
pub fn written(context: &mut Context, source: &Source, segment: Option<&Segment>) {
    let value = f32::from_bits(source.bound.1);
    let bound = match source.bound.0 {
        0 => Lossless,
        1 => Absolute(value),
        _ => Relative(value),
    };
    let model = model_of(source.model, source.ends);
    let said = numbered(Segment::write_bits(model, bound, &source.residuals));
    let paper = segment.cloned().ok_or(refusal::LIMIT);
    context.same("safe segment", paper, said, || source.to_string());
}

/// What the safe type reads: the model, the grid and both sums.
pub fn read(context: &mut Context, segment: &Segment, times: &[i64]) {
    let (mut out, mut drawn) = (vec![0; times.len()], vec![0; times.len()]);
    let stored = StoredSegment::from(segment);
    let paper = face::read(stored, times);
    let ends = decoded(paper.model, paper.extremes, paper.values);
    let paper = (
        ends.ok_or(refusal::FORM),
        paper.grid(&mut out).map(|()| out),
        paper.sum_by_average(),
        paper.sum_over_times(),
    );
    let said = (
        numbered(segment.model().map(ends_of)),
        placed(segment.grid_bits(times, &mut drawn)).map(|()| drawn),
        placed(segment.sum_by_average_bits(times)),
        placed(segment.sum_over_bits(times)),
    );
    context.same("safe segment", paper, said, || {
        format!("safe reading {segment:X?} at {times:?}")
    });
}
