//! The calls over one build of the Rust's text. `published` and `filled` each load this file.

use super::direct::DIRECT;
use super::text::models::macaque_v::{self, MacaqueV};
use super::text::models::{self, pmc_mean, swing, timestamps};
use super::text::types::{self, CompressedSegmentBuilder};
use super::text::{maximum, minimum};
use crate::faults::caught;
use crate::paper::macaque_v::Opening;
use crate::paper::models::ErrorBound;
use crate::paper::numbers::{bits_of_f32, bits_of_f64};
use crate::paper::pmc_mean::PMCMean;
use crate::paper::segments::Segment;
use crate::paper::swing::{Line, Swing};
use crate::paper::types::{Extremes, Model, ModelBuilder, PMC_MEAN_ID};
use crate::rust::{Call, Calls, Chosen, SegmentBytes, Stream};
use crate::stand_in::{CompressedSegmentBatchBuilder, List, set_metadata_size};

pub const fn named(name: &'static str) -> Calls {
    Calls {
        name,
        within,
        deviation,
        pmc_step,
        pmc_cost,
        pmc_model,
        pmc_sum,
        pmc_grid,
        swing_step,
        swing_cost,
        swing_model,
        swing_sum,
        swing_grid,
        builder_step,
        choose,
        write,
        read,
        sum,
        encode_pmc,
        encode_swing,
        decode_pmc,
        decode_swing,
        segment_write,
        segment_grid,
        segment_sum,
        direct: DIRECT,
    }
}

fn floats(values: &[u32]) -> Vec<f32> {
    values.iter().map(|&bits| f32::from_bits(bits)).collect()
}

/// The bits as they are: the text moves them and computes nothing.
fn raw_bits(values: &[f32]) -> Vec<u32> {
    values.iter().map(|value| value.to_bits()).collect()
}

fn drawn(values: &[f32]) -> Vec<u32> {
    values.iter().map(|&value| bits_of_f32(value)).collect()
}

fn within(bound: ErrorBound, real: u32, approximate: u32) -> bool {
    let (real, approximate) = (f32::from_bits(real), f32::from_bits(approximate));
    models::is_value_within_error_bound(bound, real, approximate)
}

fn deviation(bound: ErrorBound, value: u64) -> u64 {
    bits_of_f64(models::maximum_allowed_deviation(
        bound,
        f64::from_bits(value),
    ))
}

fn pmc_in(state: PMCMean) -> pmc_mean::PMCMean {
    pmc_mean::PMCMean {
        error_bound: state.error_bound,
        min_value: state.min_value,
        max_value: state.max_value,
        sum_of_values: state.sum_of_values,
        length: state.length,
    }
}

fn pmc_out(state: &pmc_mean::PMCMean) -> PMCMean {
    PMCMean {
        error_bound: state.error_bound,
        min_value: state.min_value,
        max_value: state.max_value,
        sum_of_values: state.sum_of_values,
        length: state.length,
    }
}

fn pmc_step(state: PMCMean, value: u32) -> (bool, PMCMean) {
    let mut state = pmc_in(state);
    let fits = state.fit_value(f32::from_bits(value));
    (fits, pmc_out(&state))
}

fn pmc_cost(state: PMCMean, m: u32) -> u32 {
    set_metadata_size(m);
    bits_of_f32(pmc_in(state).bytes_per_value())
}

fn pmc_model(state: PMCMean) -> u32 {
    bits_of_f32(pmc_in(state).model())
}

fn pmc_sum(length: usize, value: u32) -> u32 {
    bits_of_f32(pmc_mean::sum(length, f32::from_bits(value)))
}

fn pmc_grid(value: u32, count: usize) -> Vec<u32> {
    let mut values = List::new();
    pmc_mean::grid(f32::from_bits(value), &vec![0; count], &mut values);
    drawn(values.values())
}

fn swing_in(state: Swing) -> swing::Swing {
    swing::Swing {
        error_bound: state.error_bound,
        start_time: state.start_time,
        end_time: state.end_time,
        first_value: state.first_value,
        upper_bound_slope: state.upper_bound_slope,
        upper_bound_intercept: state.upper_bound_intercept,
        lower_bound_slope: state.lower_bound_slope,
        lower_bound_intercept: state.lower_bound_intercept,
        slope_with_minimum_mse_numerator: state.numerator,
        slope_with_minimum_mse_denominator: state.denominator,
        length: state.length,
    }
}

fn swing_out(state: &swing::Swing) -> Swing {
    Swing {
        error_bound: state.error_bound,
        start_time: state.start_time,
        end_time: state.end_time,
        first_value: state.first_value,
        upper_bound_slope: state.upper_bound_slope,
        upper_bound_intercept: state.upper_bound_intercept,
        lower_bound_slope: state.lower_bound_slope,
        lower_bound_intercept: state.lower_bound_intercept,
        numerator: state.slope_with_minimum_mse_numerator,
        denominator: state.slope_with_minimum_mse_denominator,
        length: state.length,
    }
}

fn swing_step(state: Swing, timestamp: i64, value: u32) -> (bool, Swing) {
    let mut state = swing_in(state);
    let fits = state.fit_data_point(timestamp, f32::from_bits(value));
    (fits, swing_out(&state))
}

fn swing_cost(state: Swing, m: u32) -> u32 {
    set_metadata_size(m);
    bits_of_f32(swing_in(state).bytes_per_value())
}

fn swing_model(state: Swing) -> (u32, u32) {
    let (first, last) = swing_in(state).model();
    (bits_of_f32(first), bits_of_f32(last))
}

fn swing_sum(line: Line, times: &[i64]) -> u32 {
    let sum = swing::sum(
        line.start_time,
        line.end_time,
        &timestamps::compress_residual_timestamps(times),
        f32::from_bits(line.first_value),
        f32::from_bits(line.last_value),
        0,
    );
    bits_of_f32(sum)
}

fn swing_grid(line: Line, times: &[i64]) -> Vec<u32> {
    let mut values = List::new();
    swing::grid(
        line.start_time,
        line.end_time,
        f32::from_bits(line.first_value),
        f32::from_bits(line.last_value),
        times,
        &mut values,
    );
    drawn(values.values())
}

fn builder_in(builder: ModelBuilder) -> types::ModelBuilder {
    types::ModelBuilder {
        start_index: 0,
        pmc_mean: pmc_in(builder.pmc_mean),
        pmc_mean_could_fit_all: builder.pmc_mean_could_fit_all,
        swing: swing_in(builder.swing),
        swing_could_fit_all: builder.swing_could_fit_all,
    }
}

fn builder_step(builder: ModelBuilder, timestamp: i64, value: u32) -> (bool, ModelBuilder) {
    let mut builder = builder_in(builder);
    let fits = builder.try_to_update_models(timestamp, f32::from_bits(value));
    let after = ModelBuilder {
        pmc_mean: pmc_out(&builder.pmc_mean),
        pmc_mean_could_fit_all: builder.pmc_mean_could_fit_all,
        swing: swing_out(&builder.swing),
        swing_could_fit_all: builder.swing_could_fit_all,
    };
    (fits, after)
}

fn choose(builder: ModelBuilder, m: u32) -> Chosen {
    set_metadata_size(m);
    let segment = builder_in(builder).finish();
    Chosen {
        id: segment.model_type_id as u32,
        length: segment.end_index.wrapping_add(1),
        last_value: bits_of_f32(segment.model_last_value),
        bytes_per_value: bits_of_f32(segment.bytes_per_value),
        extremes: extremes(segment.min_value, segment.max_value),
        values: segment.values,
    }
}

fn extremes(min_value: f32, max_value: f32) -> Extremes {
    Extremes {
        min_value: min_value.to_bits(),
        max_value: max_value.to_bits(),
    }
}

fn write(bound: ErrorBound, calls: &[Call]) -> Stream {
    let mut writer = MacaqueV::new(bound);
    for &(opening, values) in calls {
        match maybe_last_value(opening) {
            None => writer.compress_values(&floats(values)),
            Some(last) => writer.compress_values_without_first(&floats(values), last),
        }
    }
    let (bytes, min_value, max_value) = writer.model();
    Stream {
        bytes,
        extremes: extremes(min_value, max_value),
    }
}

fn maybe_last_value(opening: Opening) -> Option<f32> {
    match opening {
        Opening::WithFirst => None,
        Opening::On(last) => Some(f32::from_bits(last)),
    }
}

fn read(bytes: &[u8], count: usize, opening: Opening) -> Option<Vec<u32>> {
    caught(|| {
        let mut values = List::new();
        let last = maybe_last_value(opening);
        macaque_v::grid(bytes, &vec![0; count], &mut values, last);
        raw_bits(values.values())
    })
}

fn sum(bytes: &[u8], count: usize, opening: Opening) -> Option<u32> {
    caught(|| bits_of_f32(macaque_v::sum(count, bytes, maybe_last_value(opening))))
}

fn encode_pmc(value: u32, residuals: Extremes) -> Vec<u8> {
    let value = f32::from_bits(value);
    CompressedSegmentBuilder::encode_values_for_pmc_mean(
        value,
        value,
        f32::from_bits(residuals.min_value),
        f32::from_bits(residuals.max_value),
    )
}

/// The model's extremes and order are worked out as the text does where it selects Swing.
fn encode_swing(first: u32, last: u32, residuals: Extremes) -> Vec<u8> {
    let (first, last) = (f32::from_bits(first), f32::from_bits(last));
    CompressedSegmentBuilder::encode_values_for_swing(
        minimum(first, last),
        maximum(first, last),
        first < last,
        f32::from_bits(residuals.min_value),
        f32::from_bits(residuals.max_value),
    )
}

fn decode_pmc(segment: Extremes, bytes: &[u8]) -> Option<u32> {
    let (min, max) = (segment.min_value, segment.max_value);
    let (min, max) = (f32::from_bits(min), f32::from_bits(max));
    caught(|| {
        bits_of_f32(CompressedSegmentBuilder::decode_values_for_pmc_mean(
            min, max, bytes,
        ))
    })
}

fn decode_swing(segment: Extremes, bytes: &[u8]) -> Option<(u32, u32)> {
    let (min, max) = (segment.min_value, segment.max_value);
    let (min, max) = (f32::from_bits(min), f32::from_bits(max));
    caught(|| {
        let ends = CompressedSegmentBuilder::decode_values_for_swing(min, max, bytes);
        (bits_of_f32(ends.0), bits_of_f32(ends.1))
    })
}

/// A segment of a model that stands for one value, and residuals after it.
fn segment_write(model: Model, bound: ErrorBound, residuals: &[u32]) -> SegmentBytes {
    let (first, last) = (model.first_value, model.last_value);
    let (first, last) = (f32::from_bits(first), f32::from_bits(last));
    let rises = model.id == PMC_MEAN_ID || first < last;
    let builder = CompressedSegmentBuilder {
        model_type_id: model.id as i8,
        start_index: 0,
        end_index: 0,
        min_value: minimum(first, last),
        max_value: maximum(first, last),
        values: if rises { vec![] } else { vec![0] },
        model_last_value: last,
        bytes_per_value: f32::from_bits(model.bytes_per_value),
    };
    let times = List::of((0..=residuals.len() as i64).collect());
    let values = List::of([vec![first], floats(residuals)].concat());
    let mut batch = CompressedSegmentBatchBuilder::default();
    builder.finish(bound, residuals.len(), &times, &values, &mut batch);
    let segment = batch.segment.expect("a finished segment");
    SegmentBytes {
        extremes: extremes(segment.min_value, segment.max_value),
        values: segment.values,
        residuals: segment.residuals,
    }
}

fn segment_grid(segment: Segment) -> Option<Vec<u32>> {
    caught(|| {
        let mut values = List::new();
        models::grid(
            segment.model as i8,
            segment.timestamps[0],
            segment.timestamps[segment.timestamps.len() - 1],
            &timestamps::compress_residual_timestamps(segment.timestamps),
            f32::from_bits(segment.extremes.min_value),
            f32::from_bits(segment.extremes.max_value),
            segment.values,
            segment.residuals,
            &mut List::new(),
            &mut values,
        );
        raw_bits(values.values())
    })
}

fn segment_sum(segment: Segment) -> Option<u32> {
    caught(|| {
        bits_of_f32(models::sum(
            segment.model as i8,
            segment.timestamps[0],
            segment.timestamps[segment.timestamps.len() - 1],
            &timestamps::compress_residual_timestamps(segment.timestamps),
            f32::from_bits(segment.extremes.min_value),
            f32::from_bits(segment.extremes.max_value),
            segment.values,
            segment.residuals,
        ))
    })
}
