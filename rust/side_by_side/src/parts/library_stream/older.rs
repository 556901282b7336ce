//! Streams that were written by the first rules: they read as they did, and are written on by today's.

use super::both::{self, At};
use super::{Stream, room_for};
use crate::context::Context;
use crate::lent::{STALE, STALE_VALUE, STALE_WORD};
use crate::parts::macaque_v;
use modelardb_rattle::Fault;
use modelardb_rattle::ffi::STATE_WORDS;
use oracle::paper::macaque_v::kept;
use oracle::paper::models::ErrorBound;
use oracle::paper::rules;

pub fn older(context: &mut Context) {
    for _ in 0..context.rounds(40_000) {
        let count = 2 + context.inputs.below(10) as usize;
        let values = context.inputs.values(count);
        let (bound, opening) = (context.inputs.bound_for(&values), context.inputs.opening());
        let stream = Stream::new(context, bound, opening, &values);
        let write = || macaque_v::written(bound, opening, &values).0;
        let old = context.first(&stream.bytes, write);
        let first = rules::as_first(|| kept_behind(&stream, bound, &[]));
        let whole = (&old[..], count, stream.opening);
        let read = both::read(context, both::GRID, whole, &vec![STALE_VALUE; count]);
        let input = || format!("written before: {:X?} {values:08X?}", bound.row());
        context.same("read as it was", &(Fault::ACCEPTED, first), &read, input);
        for k in 0..=count {
            written_on(context, &stream, bound, &old, &read.1[..k]);
        }
    }
}

/// Reopened behind these values, and written on with the rest of the list: it reads as them and what is kept of the rest.
fn written_on(
    context: &mut Context,
    stream: &Stream,
    bound: ErrorBound,
    old: &[u8],
    before: &[u32],
) {
    let (k, count) = (before.len(), stream.count());
    let buffer = [old, &vec![STALE; room_for(count)]].concat();
    let at = At {
        used: old.len(),
        ..stream.at(k)
    };
    let (_, row, cut) = both::reopened(context, &buffer, at, &[STALE_WORD; STATE_WORDS]);
    let (_, row, bytes) = both::written(context, &row, &stream.values[k..], &cut);
    let used = row[8].div_ceil(8) as usize;
    let whole = (&bytes[..used], count, stream.opening);
    let read = both::read(context, both::GRID, whole, &vec![STALE_VALUE; count]);
    let all = [before, &kept_behind(stream, bound, before)].concat();
    let input = || {
        format!(
            "written on at {k}: {at:X?} {old:02X?} {:08X?}",
            stream.values
        )
    };
    context.same("written on", (Fault::ACCEPTED, all), read, input);
}

/// What is kept of the rest of a stream's list behind these values, by the rules in force.
fn kept_behind(stream: &Stream, bound: ErrorBound, before: &[u32]) -> Vec<u32> {
    let is_raw = before.is_empty() && stream.opening.0 == 0;
    let opened_on = stream.fresh[4] as u32;
    let mut last = before.last().copied().unwrap_or(opened_on);
    let rest = stream.values[before.len()..].iter().enumerate();
    rest.map(|(number, &value)| {
        last = match number {
            0 if is_raw => value,
            _ => kept(bound, last, value),
        };
        last
    })
    .collect()
}
