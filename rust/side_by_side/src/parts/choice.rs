//! The choice between PMC-Mean and Swing, over lists and over any handed-in builder.

use crate::context::Context;
use crate::inputs::whole_numbers;
use crate::parts::{pmc_mean, swing};
use oracle::paper::models::ErrorBound::{self, Lossless};
use oracle::paper::numbers::canonical;
use oracle::paper::refusal;
use oracle::paper::rules;
use oracle::paper::types::{Extremes, Model, ModelBuilder, PMC_MEAN_ID, SWING_ID, choose_model};
use oracle::paper::{Answer, MOST_METADATA, MOST_VALUES};
use oracle::rust::{Calls, Chosen};

pub fn choice(context: &mut Context) {
    for _ in 0..context.rounds(150_000) {
        let count = 1 + context.inputs.below(40) as usize;
        let (times, values) = (context.inputs.times(count), context.inputs.values(count));
        let bound = context.inputs.bound_for(&values);
        let m = 1 + context.inputs.below(200) as u32;
        over_list(context, (&times, &values), bound, m);
    }
    for _ in 0..context.rounds(1_000_000) {
        let (builder, next_time) = any_builder(context);
        let value = context.inputs.value();
        let (fits, next) = step(context, builder, next_time, value);
        let m = 1 + context.inputs.below(MOST_METADATA.into()) as u32;
        choose(context, builder, m);
        if fits {
            choose(context, next, m);
        }
    }
}

/// Lengths about that from which on Swing wins, handed in and of lists.
pub fn edges(context: &mut Context) {
    for _ in 0..context.rounds(300_000) {
        let (builder, m) = at_the_edge(context);
        choose(context, builder, m);
    }
    for _ in 0..context.rounds(8) {
        let (m, lengths) = context.inputs.parting_edge(1 << 14);
        let (values, bound) = whole_numbers(lengths);
        let times: Vec<i64> = (0..values.len() as i64).collect();
        over_list(context, (&times, &values), bound, m);
    }
}

/// The paper's builder stepped over a list of points, beside the Rust's text; where its rules part on the way, once
/// more by the first ones.
pub fn over_list(context: &mut Context, lists: (&[i64], &[u32]), bound: ErrorBound, m: u32) {
    let before = context.parted();
    stepped_over(context, lists, bound, m);
    if context.parted() != before {
        rules::as_first(|| stepped_over(context, lists, bound, m));
    }
}

/// By the rules in force.
fn stepped_over(
    context: &mut Context,
    (times, values): (&[i64], &[u32]),
    bound: ErrorBound,
    m: u32,
) {
    let mut builder = ModelBuilder::new(bound).expect("an allowed bound");
    for (&time, &value) in times.iter().zip(values) {
        let (fits, next) = step(context, builder, time, value);
        builder = next;
        if !fits {
            break;
        }
    }
    choose(context, builder, m);
    let (whole, stepped) = (choose_model(times, values, bound, m), builder.finish(m));
    context.same("paper, stepped", whole, stepped, || {
        format!(
            "choose_model {:X?} M {m} {times:?} {values:08X?}",
            bound.row()
        )
    });
}

pub fn step(
    context: &mut Context,
    builder: ModelBuilder,
    time: i64,
    value: u32,
) -> (bool, ModelBuilder) {
    let ask = || {
        let answer = builder.try_to_update_models(time, value);
        answer.expect("an allowed step")
    };
    let said = |(fits, next): (bool, ModelBuilder)| (fits, next.row());
    let (fits, next) = ask();
    let first = context.first(&said((fits, next)), || said(ask()));
    for rust in context.rust {
        let theirs = said((rust.builder_step)(builder, time, value));
        // Listed: the published deviation, and which of two zeros is the minimum.
        let is_listed = !rust.is_filled() && (builder.swing.error_bound != Lossless || zero(next));
        context.same_or(is_listed, rust.name, &first, &theirs, || {
            format!("builder {:X?} with {value:08X} at {time}", builder.row())
        });
    }
    (fits, next)
}

fn zero(builder: ModelBuilder) -> bool {
    let pmc_mean = builder.pmc_mean;
    pmc_mean.min_value == 0.0 || pmc_mean.max_value == 0.0 || builder.swing.first_value == 0.0
}

pub fn choose(context: &mut Context, builder: ModelBuilder, m: u32) {
    let ask = || builder.finish(m);
    let today = ask();
    let paper = context.first(&today, ask);
    let input = || format!("choice of {:X?}, M {m}", builder.row());
    // "Wherever the old rule chose Swing, the new one does."
    let is_swing = |answer: Answer<Model>| answer.is_ok_and(|model| model.id == SWING_ID);
    let by_the_first_alone = is_swing(paper) && !is_swing(today);
    context.same("the first rule", false, by_the_first_alone, input);
    // "A state of length 0 .. given to the choice": 11. Listed: it is chosen from there.
    let is_empty = builder.pmc_mean.length == 0 || builder.swing.length == 0;
    let refusal = is_empty.then_some(refusal::NO_MODEL);
    context.same("a length of 0", paper.err(), refusal, input);
    let Ok(paper) = paper else {
        return;
    };
    for rust in context.rust {
        let theirs = with_canonical_extremes((rust.choose)(builder, m));
        let (first, last) = (rust.swing_model)(builder.swing);
        let runs_off = theirs.id == SWING_ID && is_finite(first) && !is_finite(last);
        // Listed: which of two zeros is the minimum. All else of the choice is held to be the same.
        let ends_at_zero = theirs.id == SWING_ID && f32::from_bits(last) == 0.0;
        let is_zero = !rust.is_filled() && (zero(builder) || ends_at_zero);
        // Listed: a line that runs off to no finite value is chosen there; here PMC's model is.
        if runs_off && !is_zero {
            let of_pmc_mean = as_chosen(pmc_mean_model(rust, builder, m));
            context.same("PMC's model", as_chosen(paper), of_pmc_mean, input);
        }
        let paper = as_chosen(paper);
        if is_zero && !runs_off {
            let alike = without_zero_signs(&paper) == without_zero_signs(&theirs);
            context.same_or(alike, rust.name, paper, theirs, input);
        } else {
            context.same_or(runs_off, rust.name, paper, theirs, input);
        }
    }
}

/// PMC's model by the Rust's own calls.
fn pmc_mean_model(rust: &Calls, builder: ModelBuilder, m: u32) -> Model {
    let value = (rust.pmc_model)(builder.pmc_mean);
    Model {
        id: PMC_MEAN_ID,
        length: builder.pmc_mean.length,
        first_value: value,
        last_value: value,
        bytes_per_value: (rust.pmc_cost)(builder.pmc_mean, m),
    }
}

fn is_finite(bits: u32) -> bool {
    f32::from_bits(bits).is_finite()
}

/// What the Rust's choice holds for a model: minimum, maximum, and a byte if it does not rise.
fn as_chosen(model: Model) -> Chosen {
    let (first, last) = (model.first_value, model.last_value);
    let rises = f32::from_bits(first) < f32::from_bits(last);
    let order_byte = model.id == SWING_ID && !rises;
    Chosen {
        id: model.id,
        length: model.length,
        last_value: last,
        bytes_per_value: model.bytes_per_value,
        extremes: Extremes::of_model(first, last),
        values: if order_byte { vec![0] } else { vec![] },
    }
}

fn with_canonical_extremes(chosen: Chosen) -> Chosen {
    Chosen {
        extremes: Extremes {
            min_value: canonical(chosen.extremes.min_value),
            max_value: canonical(chosen.extremes.max_value),
        },
        ..chosen
    }
}

/// The same with +0 for each zero.
fn without_zero_signs(chosen: &Chosen) -> Chosen {
    let plus = |bits: u32| if bits << 1 == 0 { 0 } else { bits };
    Chosen {
        last_value: plus(chosen.last_value),
        extremes: Extremes {
            min_value: plus(chosen.extremes.min_value),
            max_value: plus(chosen.extremes.max_value),
        },
        ..chosen.clone()
    }
}

/// A builder of any two states, either of which may have failed.
fn any_builder(context: &mut Context) -> (ModelBuilder, i64) {
    let pmc_mean = pmc_mean::any_state(context);
    let (swing, next_time) = swing::any_state(context);
    let builder = ModelBuilder {
        pmc_mean,
        pmc_mean_could_fit_all: context.inputs.below(4) > 0,
        swing,
        swing_could_fit_all: context.inputs.below(4) > 0,
    };
    (builder, next_time)
}

/// A builder of any two states with lengths about that from which on Swing wins, and M.
fn at_the_edge(context: &mut Context) -> (ModelBuilder, u32) {
    let (mut builder, later) = any_builder(context);
    let (m, [pmc_mean, swing]) = context.inputs.edge(MOST_VALUES);
    builder.pmc_mean.length = pmc_mean;
    builder.swing.length = swing;
    builder.swing.end_time = if swing > 1 {
        later
    } else {
        builder.swing.start_time
    };
    (builder, m)
}
