//! PMC-Mean: steps of fresh states and of any handed-in one, models, costs, sums and grids.

use crate::context::Context;
use crate::inputs::SPECIAL;
use oracle::paper::numbers::canonical;
use oracle::paper::pmc_mean::{self, PMCMean};
use oracle::paper::refusal;
use oracle::paper::{MOST_METADATA, MOST_VALUES};

/// A step's answer: whether it fits, and the state's row.
type Step = (bool, [u64; 6]);

pub fn pmc_mean(context: &mut Context) {
    for _ in 0..context.rounds(120_000) {
        let count = context.inputs.below(40) as usize;
        let values = context.inputs.values(count);
        let bound = context.inputs.bound_for(&values);
        let mut state = PMCMean::new(bound).expect("an allowed bound");
        for value in values {
            state = step(context, state, value);
        }
        of_state(context, state);
    }
    for _ in 0..context.rounds(3_000_000) {
        let (state, value) = (any_state(context), context.inputs.value());
        step(context, state, value);
        of_state(context, state);
    }
    for value in SPECIAL {
        for length in [0, 1, 2, 3, 255, MOST_VALUES - 1, MOST_VALUES] {
            of_value(context, value, length);
        }
    }
}

fn step(context: &mut Context, state: PMCMean, value: u32) -> PMCMean {
    let ask = || state.fit_value(value).expect("a state that may be used");
    let said = |(fits, next): (bool, PMCMean)| -> Step { (fits, next.row()) };
    let today = ask();
    let first = context.first(&said(today), || said(ask()));
    for rust in context.rust {
        let (mut ours, mut theirs) = (first, said((rust.pmc_step)(state, value)));
        if !rust.is_filled() {
            // Listed: which of two zeros is the minimum depends on the build there.
            (ours, theirs) = (without_zero_signs(ours), without_zero_signs(theirs));
        }
        context.same(rust.name, ours, theirs, || {
            format!("PMC {:X?} with {value:08X}", state.row())
        });
    }
    today.1
}

fn without_zero_signs((fits, mut row): Step) -> Step {
    for field in &mut row[2..4] {
        if *field == 0x8000_0000 {
            *field = 0;
        }
    }
    (fits, row)
}

fn of_state(context: &mut Context, state: PMCMean) {
    let m = 1 + context.inputs.below(MOST_METADATA.into()) as u32;
    let paper = (state.model(), state.bytes_per_value(m));
    let input = || format!("PMC model {:X?}, M {m}", state.row());
    // "A state of length 0 asked for its model or cost": 11. There it is answered.
    let refusal = (state.length == 0).then_some(refusal::NO_MODEL);
    let refusals = (paper.0.err(), paper.1.err());
    context.same("a length of 0", refusals, (refusal, refusal), input);
    for rust in context.rust.iter().filter(|_| state.length > 0) {
        let theirs = (Ok((rust.pmc_model)(state)), Ok((rust.pmc_cost)(state, m)));
        context.same(rust.name, paper, theirs, input);
    }
}

fn of_value(context: &mut Context, value: u32, length: usize) {
    let mut out = vec![0; length];
    let grid = pmc_mean::grid(value, length, &mut out).map(|()| out);
    let sum = pmc_mean::sum(length, value);
    for rust in context.rust {
        let input = || format!("PMC {value:08X} for {length} values");
        context.same(rust.name, sum, Ok((rust.pmc_sum)(length, value)), input);
        let theirs = (rust.pmc_grid)(value, length);
        context.same(rust.name, grid.clone(), Ok(theirs), input);
    }
}

/// A state with any bits in its fields.
pub fn any_state(context: &mut Context) -> PMCMean {
    let inputs = &mut context.inputs;
    PMCMean {
        error_bound: inputs.bound(),
        min_value: f32::from_bits(canonical(inputs.value())),
        max_value: f32::from_bits(canonical(inputs.value())),
        sum_of_values: inputs.wide(),
        length: inputs.below(MOST_VALUES as u64) as usize,
    }
}
