//! The safe types over the same calls, beside the paper's program.

use super::run::Run;
use crate::context::Context;
use crate::face::{self, fit::metadata, numbered};
use modelardb_rattle::{self as library, ModelBuilder, PMCMean, Refusal, SelectedModel, Swing};
use oracle::paper::{Answer, pmc_mean, swing, types};

/// A run by each of the safe types.
pub fn over(context: &mut Context, run: &Run) {
    pmc_mean(context, run);
    swing(context, run);
    builder(context, run);
}

fn pmc_mean(context: &mut Context, run: &Run) {
    let mut paper = pmc_mean::PMCMean::new(run.bound).expect("an allowed bound");
    let mut ours = PMCMean::new(face::safe_bound(run.bound)).expect("an allowed bound");
    for &value in &run.values {
        let (said, before) = (ours.fit_value_bits(value), paper);
        paper = step(context, run, (before, before.fit_value(value)), said);
    }
    let answers = (paper.model(), paper.bytes_per_value(metadata(run.m)));
    let cost = ours.bytes_per_value(run.m).map(f32::to_bits);
    let said = (numbered(ours.model_bits()), numbered(cost));
    context.same("safe PMC", answers, said, || run.to_string());
    let said = [
        ours.min_value().to_bits().into(),
        ours.max_value().to_bits().into(),
        ours.sum_of_values().to_bits(),
        ours.len() as u64,
    ];
    context.same("safe PMC", &paper.row()[2..], &said[..], || run.to_string());
}

fn swing(context: &mut Context, run: &Run) {
    let mut paper = swing::Swing::new(run.bound).expect("an allowed bound");
    let mut ours = Swing::new(face::safe_bound(run.bound)).expect("an allowed bound");
    for (time, value) in run.points() {
        let (said, before) = (ours.fit_data_point_bits(time, value), paper);
        let answer = before.fit_data_point(time, value);
        paper = step(context, run, (before, answer), said);
    }
    let answers = (paper.model(), paper.bytes_per_value(metadata(run.m)));
    let cost = ours.bytes_per_value(run.m).map(f32::to_bits);
    let said = (numbered(ours.model_bits()), numbered(cost));
    context.same("safe Swing", answers, said, || run.to_string());
    let ((upper, lower), (numerator, denominator)) = (ours.slopes(), ours.error_sums());
    let said = [
        ours.start_time() as u64,
        ours.end_time() as u64,
        upper.to_bits(),
        lower.to_bits(),
        numerator.to_bits(),
        denominator.to_bits(),
        ours.len() as u64,
    ];
    let row = paper.row();
    let words = [2, 3, 5, 7, 9, 10, 11].map(|word| row[word]);
    context.same("safe Swing", words, said, || run.to_string());
}

/// The builder, and the whole rule in one call.
fn builder(context: &mut Context, run: &Run) {
    let (bound, m) = (face::safe_bound(run.bound), metadata(run.m));
    let mut paper = types::ModelBuilder::new(run.bound).expect("an allowed bound");
    let mut ours = ModelBuilder::new(bound).expect("an allowed bound");
    for (time, value) in run.points() {
        let (said, before) = (ours.try_to_update_models_bits(time, value), paper);
        let answer = before.try_to_update_models(time, value);
        paper = step(context, run, (before, answer), said);
    }
    let lengths = [paper.pmc_mean.length, paper.swing.length];
    let flags = [paper.pmc_mean_could_fit_all, paper.swing_could_fit_all];
    let said_lengths = [ours.pmc_mean_length(), ours.swing_length()];
    let said_flags = [ours.pmc_mean_could_fit_all(), ours.swing_could_fit_all()];
    context.same(
        "safe builder",
        (lengths, flags, bound),
        (said_lengths, said_flags, ours.error_bound()),
        || run.to_string(),
    );
    let said = numbered(ours.finish(run.m)).map(model);
    context.same("safe builder", paper.finish(m), said, || run.to_string());
    let paper = types::choose_model(&run.times, &run.values, run.bound, m);
    let said = library::choose_model_bits(&run.times, &run.values, bound, run.m);
    let said = numbered(said).map(model);
    context.same("safe choose_model", paper, said, || run.to_string());
}

/// The paper's step from `before`, beside what the safe type said; the state after it.
fn step<S>(
    context: &mut Context,
    run: &Run,
    (before, answer): (S, Answer<(bool, S)>),
    said: Result<bool, Refusal>,
) -> S {
    let (fits, after) = match answer {
        Ok((fits, after)) => (Ok(fits), after),
        Err(number) => (Err(number), before),
    };
    context.same("safe step", fits, numbered(said), || run.to_string());
    after
}

fn model(ours: SelectedModel) -> types::Model {
    types::Model {
        id: ours.model_type_id(),
        length: ours.length(),
        first_value: ours.first_value_bits(),
        last_value: ours.last_value_bits(),
        bytes_per_value: ours.bytes_per_value().to_bits(),
    }
}
