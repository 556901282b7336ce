//! Streams reopened at every value and written on: the bytes and the state of one fresh run.

use super::{Stream, both};
use crate::context::Context;
use crate::lent::{STALE, STALE_WORD};
use modelardb_rattle::Fault;
use modelardb_rattle::ffi::STATE_WORDS;
use oracle::paper::MOST_VALUES;

pub fn resumed(context: &mut Context) {
    for _ in 0..context.rounds(1_500) {
        let count = context.inputs.below(24) as usize;
        let stream = Stream::any(context, count);
        at_every_value(context, &stream);
    }
    for _ in 0..context.rounds(40) {
        let count = 280 + context.inputs.below(21) as usize;
        let stream = Stream::any(context, count);
        at_every_value(context, &stream);
    }
    for count in [2_100, MOST_VALUES] {
        let stream = Stream::any(context, count);
        for k in [
            0,
            1,
            1_023,
            1_024,
            1_025,
            2_047,
            2_048,
            2_049,
            count - 1,
            count,
        ] {
            at_value(context, &stream, k);
        }
    }
}

fn at_every_value(context: &mut Context, stream: &Stream) {
    let (mut fresh, mut bytes) = (stream.fresh.clone(), vec![STALE; stream.bytes.len()]);
    for k in 0..=stream.count() {
        let row = at_value(context, stream, k);
        let input = || format!("run up to {k}: {:X?} {:08X?}", stream.fresh, stream.values);
        context.same("a run up to there", &fresh, &row, input);
        if let Some(&value) = stream.values.get(k) {
            (_, fresh, bytes) = both::written(context, &fresh, &[value], &bytes);
        }
    }
}

/// Reopened at k, and written on in a buffer that goes on with other bytes. The state at k.
fn at_value(context: &mut Context, stream: &Stream, k: usize) -> Vec<u64> {
    let buffer = [&stream.bytes[..], &[STALE; 3]].concat();
    let row = [STALE_WORD; STATE_WORDS + 1];
    let (_, mut row, cut) = both::reopened(context, &buffer, stream.at(k), &row);
    let end = [&stream.row[..], &[STALE_WORD]].concat();
    let whole = (Fault::ACCEPTED, end, buffer);
    both::written_as(context, &whole, &row, &stream.values[k..], &cut);
    row.truncate(STATE_WORDS);
    row
}
