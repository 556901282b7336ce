//! The rows about the choice between PMC-Mean and Swing.

use super::fitting::{ALLOWED, pmc_mean_under, swing_under};
use super::said::{Row, row};
use crate::face::safe_bound;
use crate::inputs::{ONE, TWO, whole_numbers};
use modelardb_rattle::ffi::{self, SELECTED_MODEL_WORDS};
use modelardb_rattle::{self as library, ErrorBound as Bound, Refusal};
use oracle::paper::MOST_VALUES;
use oracle::paper::models::ErrorBound::{self, Absolute, Lossless, Relative};
use oracle::paper::types::{Model, ModelBuilder, PMC_MEAN_ID, choose_model};
use oracle::rust::{Calls, Chosen};

/// Points, and what a chosen model is said to be.
type Points = Vec<(i64, u32)>;
type Said = (u32, usize, u32);

pub fn rows() -> Vec<Row> {
    let mut rows = over_lists();
    rows.extend(of_no_model());
    rows.extend(costs_that_tie());
    rows
}

fn builder_under(error_bound: ErrorBound) -> ModelBuilder {
    ModelBuilder {
        pmc_mean: pmc_mean_under(error_bound),
        pmc_mean_could_fit_all: true,
        swing: swing_under(error_bound),
        swing_could_fit_all: true,
    }
}

/// 6, 9 and 11: Choices over lists.
fn over_lists() -> Vec<Row> {
    let max = f32::MAX.to_bits();
    let (hundred, more) = (100f32.to_bits(), 114f32.to_bits());
    let many = (0..=MOST_VALUES as i64).map(|time| (time, ONE)).collect();
    vec![
        choice(
            "choice of −MAX at 0, MAX at 1, Absolute(3e38), M 2",
            Absolute(3e38),
            vec![(0, max | 1 << 31), (1, max)],
            2,
        ),
        choice(
            "choice of 1 at 0, Absolute(0), M 2",
            Absolute(0.0),
            vec![(0, ONE)],
            2,
        ),
        choice(
            "choice of 1 at 0, 1 at 0, Lossless, M 2",
            Lossless,
            vec![(0, ONE); 2],
            2,
        ),
        choice("choice of 65,537 times 1, Lossless, M 2", Lossless, many, 2),
        choice(
            "choice of 100 at 0, 114 at 1, Relative(7), M 2",
            Relative(7.0),
            vec![(0, hundred), (1, more)],
            2,
        ),
    ]
}

fn choice(input: &'static str, bound: ErrorBound, points: Points, m: u32) -> Row {
    let (times, values): (Vec<i64>, Vec<u32>) = points.iter().copied().unzip();
    let paper = choose_model(&times, &values, bound, m).map(of_model);
    let ours = library::choose_model_bits(&times, &values, safe_bound(bound), m as usize);
    let there = move |rust: &Calls| {
        let step =
            |builder, &(time, value): &(i64, u32)| (rust.builder_step)(builder, time, value).1;
        let builder = points.iter().fold(builder_under(bound), step);
        Some(of_chosen((rust.choose)(builder, m)))
    };
    row(input, (paper, ours.map(of_selected)), there, said)
}

/// The choice of a builder that is handed in, which no state of the safe type may be.
fn of_builder(input: &'static str, builder: ModelBuilder, m: u32) -> Row {
    let mut out = [0; SELECTED_MODEL_WORDS];
    let fault = ffi::model_builder_finish(&builder.row(), m as usize, &mut out);
    let ours = match Refusal::from_fault(fault) {
        Some(refusal) => Err(refusal),
        None => Ok((out[0] as u32, out[1] as usize, out[3] as u32)),
    };
    let there = move |rust: &Calls| Some(of_chosen((rust.choose)(builder, m)));
    row(input, (builder.finish(m).map(of_model), ours), there, said)
}

fn of_model(model: Model) -> Said {
    (model.id, model.length, model.last_value)
}

fn of_chosen(chosen: Chosen) -> Said {
    (chosen.id, chosen.length, chosen.last_value)
}

fn of_selected(chosen: library::SelectedModel) -> Said {
    let last = chosen.last_value_bits();
    (chosen.model_type_id(), chosen.length(), last)
}

/// A model's kind, the number of its values and its last one.
fn said((id, length, last): Said) -> String {
    let kind = if id == PMC_MEAN_ID {
        "PMC-Mean"
    } else {
        "Swing"
    };
    format!("{kind} of {length}, last {last:08X}")
}

/// 9 and 10: A choice where one of the two models, or either, has no value.
fn of_no_model() -> [Row; 2] {
    let empty = builder_under(Lossless);
    let mut builder = empty;
    (_, builder.pmc_mean) = builder.pmc_mean.fit_value(ONE).expect(ALLOWED);
    let ours = library::ModelBuilder::new(Bound::Lossless).expect(ALLOWED);
    let here = (
        empty.finish(1).map(of_model),
        ours.finish(1).map(of_selected),
    );
    let there = move |rust: &Calls| Some(of_chosen((rust.choose)(empty, 1)));
    [
        of_builder(
            "choice of PMC-Mean of 1 and a fresh Swing (a handed-in state)",
            builder,
            1,
        ),
        row("choice of nothing", here, there, said),
    ]
}

/// 12: The costs in f32 tie, and the products do not.
fn costs_that_tie() -> [Row; 4] {
    let of_whole_numbers = |input, lengths: [usize; 2], m| {
        let (values, bound) = whole_numbers(lengths);
        choice(input, bound, (0..).zip(values).collect(), m)
    };
    [
        of_whole_numbers(
            "choice of 0 to 2947 at 0 to 2947, Absolute(1473), M 2948",
            [2_947, 2_948],
            2_948,
        ),
        of_whole_numbers(
            "choice of 0 to 48130 at 0 to 48130, Absolute(23939), M 190",
            [47_879, 48_131],
            190,
        ),
        of_builder(
            "choice of PMC-Mean of 2947 and Swing of 2948, M 2948 (a handed-in state)",
            of_lengths([2_947, 2_948]),
            2_948,
        ),
        of_builder(
            "choice of PMC-Mean of 65534 and Swing of 65535, M 65535 (a handed-in state)",
            of_lengths([65_534, 65_535]),
            65_535,
        ),
    ]
}

/// PMC-Mean of ones and Swing from 1 to 2, which stand for so many values.
fn of_lengths([pmc_mean, swing]: [usize; 2]) -> ModelBuilder {
    let mut builder = builder_under(Lossless);
    for (time, value) in [(0, ONE), (1, TWO)] {
        let step = builder.try_to_update_models(time, value);
        (_, builder) = step.expect(ALLOWED);
    }
    builder.pmc_mean.sum_of_values = pmc_mean as f64;
    builder.pmc_mean.length = pmc_mean;
    builder.swing.length = swing;
    builder
}
