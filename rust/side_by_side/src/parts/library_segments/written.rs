//! Segments written and read: every number of residuals, special values, any; with room to spare, with
//! just enough, with one place too few.

use super::source::Source;
use super::{both, safe};
use crate::context::Context;
use crate::inputs::{DOZEN, SPECIAL};
use crate::lent::{STALE, STALE_VALUE, STALE_WORD};
use crate::parts::macaque_v::short_lists;
use modelardb_rattle::ffi::{SEGMENT_WORDS, StoredSegment};
use modelardb_rattle::{Fault, Segment};
use oracle::paper::models::ErrorBound::{Absolute, Lossless, Relative};
use oracle::paper::refusal;
use oracle::paper::types::{PMC_MEAN_ID, SWING_ID};

pub fn written(context: &mut Context) {
    for count in 0..=256 {
        for model in [PMC_MEAN_ID, SWING_ID] {
            for bound in [Lossless, Absolute(0.1), Relative(1.0)] {
                let inputs = &mut context.inputs;
                let ends = (inputs.reading(), inputs.reading());
                let source = Source::new((model, ends), bound, inputs.values(count));
                every_way(context, &source);
            }
        }
    }
    special(context);
    for _ in 0..context.rounds(12_000) {
        let most = context.inputs.pick(&[1, 3, 20, 20, 255]);
        let count = context.inputs.below(most + 1) as usize;
        let source = Source::any(context, count);
        every_way(context, &source);
    }
}

/// Parameters that are special, with none, one and two residuals of the dozen.
fn special(context: &mut Context) {
    let lists = short_lists(2);
    for first in SPECIAL {
        for list in &lists {
            let ends = (first, context.inputs.value());
            let bound = context.inputs.bound();
            let source = Source::new((PMC_MEAN_ID, ends), bound, list.clone());
            every_way(context, &source);
        }
    }
    for first in DOZEN {
        for last in DOZEN {
            for list in lists.iter().filter(|list| list.len() < 2) {
                let bound = context.inputs.bound();
                let source = Source::new((SWING_ID, (first, last)), bound, list.clone());
                every_way(context, &source);
            }
        }
    }
}

fn every_way(context: &mut Context, source: &Source) {
    let segment = both::segment_of(context, source);
    safe::written(context, source, segment.as_ref());
    if let Some(segment) = segment {
        just_enough(context, source, &segment);
        let times = source.times(context);
        read_back(context, source, &segment, &times);
        safe::read(context, &segment, &times);
    }
}

/// Into outputs of the segment's own size, and of one place less: then all three stay as they were.
fn just_enough(context: &mut Context, source: &Source, segment: &Segment) {
    let Segment {
        values, residuals, ..
    } = segment;
    let row = vec![
        segment.min_value_bits.into(),
        segment.max_value_bits.into(),
        values.len() as u64,
        residuals.len() as u64,
    ];
    let room = (
        vec![STALE; values.len()],
        vec![STALE; residuals.len()],
        vec![STALE_WORD; SEGMENT_WORDS],
    );
    let full = (Fault::ACCEPTED, (values.clone(), residuals.clone(), row));
    both::written_as(context, &full, source, &room);
    let mut short = [room.clone(), room.clone(), room.clone()];
    short[0].0.pop();
    short[1].1.pop();
    short[2].2.pop();
    for memory in short.into_iter().filter(|memory| *memory != room) {
        let refused = (refusal::OUTPUT.into(), memory.clone());
        both::written_as(context, &refused, source, &memory);
    }
}

/// The grid and both sums, in each room; lossless, the residuals are the inputs.
fn read_back(context: &mut Context, source: &Source, segment: &Segment, times: &[i64]) {
    let (total, stored) = (times.len(), StoredSegment::from(segment));
    let out = vec![STALE_VALUE; total + 2];
    let (fault, drawn) = both::read(context, both::GRID, stored, times, &out);
    if fault == Fault::ACCEPTED && source.bound.0 == 0 {
        let owned = total - source.residuals.len();
        let input = || format!("read back {source} at {times:?}");
        let residuals = &drawn[owned..total];
        context.same("the inputs", &source.residuals[..], residuals, input);
    }
    both::read(context, both::GRID, stored, times, &out[..total]);
    both::read(context, both::GRID, stored, times, &out[..total - 1]);
    for sum in [both::BY_AVERAGE, both::OVER] {
        both::read(context, sum, stored, times, &out[..2]);
        both::read(context, sum, stored, times, &[]);
    }
}
