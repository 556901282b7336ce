//! The choice: a builder's row is that of PMC-Mean and then that of Swing, the last word of each a flag.

use super::fit::{NO_LENGTH, in_room, metadata, pmc_mean_in, put_pmc_mean, put_swing, swing_in};
use super::{allowed_bound, judge_words, told};
use modelardb_rattle::Fault;
use modelardb_rattle::ffi::{MODEL_BUILDER_WORDS, PMC_MEAN_WORDS, SELECTED_MODEL_WORDS, Words};
use oracle::paper::types::{self, Model, ModelBuilder};
use oracle::paper::{Answer, Read};

pub fn new(bound: Words, row: &mut [u64]) -> Fault {
    told(|| {
        let builder = allowed_bound(bound).and_then(ModelBuilder::new);
        put(row, in_room(builder, MODEL_BUILDER_WORDS, row.len())?);
        Ok(())
    })
}

pub fn try_to_update_models(row: &mut [u64], timestamp: i64, value: u32) -> Fault {
    told(|| {
        judge_words(row, MODEL_BUILDER_WORDS, &[0, PMC_MEAN_WORDS])?;
        let (_, after) = builder_in(row).try_to_update_models(timestamp, value)?;
        put(row, after);
        Ok(())
    })
}

pub fn finish(row: &[u64], m: usize, out: &mut [u64]) -> Fault {
    told(|| {
        judge_words(row, MODEL_BUILDER_WORDS, &[0, PMC_MEAN_WORDS])?;
        put_model(out, builder_in(row).finish(metadata(m)))
    })
}

pub fn choose_model(
    timestamps: &[i64],
    values: &[u32],
    bound: Words,
    m: usize,
    out: &mut [u64],
) -> Fault {
    told(|| {
        let bound = allowed_bound(bound)?;
        let chosen = types::choose_model(timestamps, values, bound, metadata(m));
        put_model(out, chosen)
    })
}

/// The builder that a row stands for. "A state's flag above 1 [is refused] with 2": then both models are
/// looked at, and the first may not be used.
pub fn builder_in(row: &[u64]) -> ModelBuilder {
    let flags = [row[PMC_MEAN_WORDS - 1], row[MODEL_BUILDER_WORDS - 1]];
    let are_flags = flags.iter().all(|&flag| flag <= 1);
    let mut pmc_mean = pmc_mean_in(row);
    if !are_flags {
        pmc_mean.length = NO_LENGTH;
    }
    ModelBuilder {
        pmc_mean,
        pmc_mean_could_fit_all: flags[0] != 0 || !are_flags,
        swing: swing_in(&row[PMC_MEAN_WORDS..]),
        swing_could_fit_all: flags[1] != 0 || !are_flags,
    }
}

/// The builder's words to the front of the row.
fn put(row: &mut [u64], builder: ModelBuilder) {
    let (pmc_mean, swing) = row.split_at_mut(PMC_MEAN_WORDS);
    put_pmc_mean(pmc_mean, builder.pmc_mean, builder.pmc_mean_could_fit_all);
    put_swing(swing, builder.swing, builder.swing_could_fit_all);
}

/// The chosen model's words to the front of the row.
fn put_model(out: &mut [u64], model: Answer<Model>) -> Read<()> {
    let model = in_room(model, SELECTED_MODEL_WORDS, out.len())?;
    let words = [
        model.id.into(),
        model.length as u64,
        model.first_value.into(),
        model.last_value.into(),
        model.bytes_per_value.into(),
    ];
    out[..SELECTED_MODEL_WORDS].copy_from_slice(&words);
    Ok(())
}
