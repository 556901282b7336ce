//! The whole path: a run is fitted, a model is chosen, a segment is written with the values behind it,
//! drawn and summed.

use super::source::Source;
use super::{both, safe};
use crate::context::Context;
use crate::face::{self, numbered, segments::read};
use crate::inputs::ABOUT_MOST;
use crate::lent::{STALE_VALUE, STALE_WORD};
use crate::parts::library_fit::{Run, choose};
use crate::parts::segments::{compare_reading, compare_writing};
use modelardb_rattle::ffi::{SELECTED_MODEL_WORDS, StoredSegment};
use modelardb_rattle::{self as library, Fault, Segment};
use oracle::paper::MOST_VALUES;
use oracle::paper::models::ErrorBound::{self, Absolute, Lossless, Relative};
use oracle::paper::refusal;
use oracle::paper::types::{Model, PMC_MEAN_ID};
use oracle::rust::SegmentBytes;

pub fn paths(context: &mut Context) {
    for _ in 0..context.rounds(8_000) {
        let most = context.inputs.pick(&[3, 12, 60, 300]);
        let count = 1 + context.inputs.below(most) as usize;
        let (times, values) = (context.inputs.times(count), context.inputs.values(count));
        let run = Run {
            bound: context.inputs.bound_for(&values),
            times,
            values,
            m: 1 + context.inputs.below(24) as usize,
        };
        along(context, &run);
    }
    for bound in [Lossless, Absolute(0.5), Relative(1.0)] {
        at_the_limit(context, bound);
    }
}

/// The model for the run and, as residuals, some or all of the values behind it.
fn along(context: &mut Context, run: &Run) {
    let bound = face::bound_words(run.bound);
    let lists = (&run.times[..], &run.values[..]);
    let out = [STALE_WORD; SELECTED_MODEL_WORDS];
    let (_, chosen) = choose(context, lists, (bound, run.m), &out);
    let model = Model {
        id: chosen[0] as u32,
        length: chosen[1] as usize,
        first_value: chosen[2] as u32,
        last_value: chosen[3] as u32,
        bytes_per_value: chosen[4] as u32,
    };
    let behind = &run.values[model.length..];
    let some = context.inputs.below(behind.len() as u64 + 1) as usize;
    let count = context.inputs.pick(&[some, behind.len()]).min(255);
    let residuals = behind[..count].to_vec();
    let times = &run.times[..model.length + residuals.len()];
    let ends = (model.first_value, model.last_value);
    let source = Source::new((model.id, ends), run.bound, residuals);
    let segment = both::segment_of(context, &source).expect("few residuals");
    parameters_come_back(context, &source, &segment);
    residuals_are_kept(context, run, &segment, times);
    safe::read(context, &segment, times);
    by_the_safe_calls(context, run, &source, &segment);
    beside_the_rust(context, run, model, &source, &segment);
    compare_reading(context, read(StoredSegment::from(&segment), times));
}

/// "The model's parameters bit for bit."
fn parameters_come_back(context: &mut Context, source: &Source, segment: &Segment) {
    let StoredSegment {
        model,
        extremes,
        values,
        ..
    } = segment.into();
    let (first, last) = source.ends;
    let ends = if model == PMC_MEAN_ID {
        vec![first]
    } else {
        vec![first, last]
    };
    let out = vec![STALE_VALUE; ends.len()];
    let read = both::decoded(context, model, extremes, values, &out);
    let accepted = (Fault::ACCEPTED, ends);
    context.same("read back", accepted, read, || source.to_string());
}

/// Drawn and summed; each residual is within the bound of its value, and lossless it is that value.
fn residuals_are_kept(context: &mut Context, run: &Run, segment: &Segment, times: &[i64]) {
    let (total, stored) = (times.len(), StoredSegment::from(segment));
    let count = segment.residuals.last().map_or(0, |&count| count.into());
    let out = vec![STALE_VALUE; total];
    let (fault, drawn) = both::read(context, both::GRID, stored, times, &out);
    for sum in [both::BY_AVERAGE, both::OVER] {
        let (summed, _) = both::read(context, sum, stored, times, &[STALE_VALUE]);
        context.same("one verdict", fault, summed, || {
            format!("{segment:X?} at {times:?}")
        });
    }
    if fault != Fault::ACCEPTED {
        return;
    }
    let (owned, bound) = (total - count, face::safe_bound(run.bound));
    for (&value, &kept) in run.values[owned..].iter().zip(&drawn[owned..]) {
        let within = library::is_value_within_error_bound_bits(bound, value, kept);
        let is_kept = run.bound != Lossless || value == kept;
        let input = || format!("{value:08X} as {kept:08X} under {bound:?}");
        context.same("kept within", (Ok(true), true), (within, is_kept), input);
    }
}

/// The same by the safe calls alone: the run's model goes into the segment as it is.
fn by_the_safe_calls(context: &mut Context, run: &Run, source: &Source, segment: &Segment) {
    let bound = face::safe_bound(run.bound);
    let chosen = library::choose_model_bits(&run.times, &run.values, bound, run.m);
    let said = chosen.and_then(|model| Segment::write_bits(model, bound, &source.residuals));
    let input = || format!("safe path {source}");
    context.same("safe path", Ok(segment.clone()), numbered(said), input);
}

/// The written segment beside those of the Rust's text.
fn beside_the_rust(
    context: &mut Context,
    run: &Run,
    model: Model,
    source: &Source,
    segment: &Segment,
) {
    let bytes = SegmentBytes {
        extremes: read(segment.into(), &[]).extremes,
        values: segment.values.clone(),
        residuals: segment.residuals.clone(),
    };
    compare_writing(context, model, run.bound, &source.residuals, &bytes);
}

/// A segment of 65,536 timestamps, of which 255 are residuals', and of one more: 3.
fn at_the_limit(context: &mut Context, bound: ErrorBound) {
    let times: Vec<i64> = (0..=MOST_VALUES as i64)
        .map(|time| 10 * time - 300_000)
        .collect();
    for model in [PMC_MEAN_ID, 1] {
        let inputs = &mut context.inputs;
        let ends = (inputs.reading(), inputs.reading());
        let source = Source::new((model, ends), bound, inputs.values(255));
        let segment = both::segment_of(context, &source).expect("few residuals");
        let stored = StoredSegment::from(&segment);
        for (total, refusal) in ABOUT_MOST.into_iter().zip([0, 0, refusal::LIMIT]) {
            let (times, out) = (&times[..total], vec![STALE_VALUE; total]);
            for call in [both::GRID, both::BY_AVERAGE, both::OVER] {
                let (fault, _) = both::read(context, call, stored, times, &out);
                let input = || format!("{total} timestamps of {source}");
                context.same("the limit", refusal.into(), fault, input);
            }
        }
    }
}
