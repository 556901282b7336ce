//! Whatever the bytes are: uploads with a bit turned, a byte lost or put in, cut anywhere, and any bytes. Damage is 6 or 7
//! where the bits alone say so, and nothing else is refused; what is kept is a stream.

use super::{arrived, every_way};
use crate::context::Context;
use crate::face::{self, opening_words};
use crate::lent::{STALE, STALE_WORD};
use crate::parts::library_stream::both::{self as plain, At};
use crate::parts::library_stream::{Stream, room_for};
use crate::parts::library_table::both::{Writer, checked, written};
use crate::shape;
use modelardb_rattle::Fault;
use modelardb_rattle::ffi::{ENTRY_WORDS, STATE_WORDS};
use oracle::paper::MOST_VALUES;
use oracle::paper::macaque_v::Opening;
use oracle::paper::models::ErrorBound;
use oracle::paper::refusal::{ENDS_EARLY, LEFTOVER};
use oracle::paper::rescue::Rescue;

pub fn damaged(context: &mut Context) {
    for _ in 0..context.rounds(150) {
        let count = 1 + context.inputs.below(14) as usize;
        turned(context, count);
    }
    for _ in 0..context.rounds(8_000) {
        let count = context.inputs.below(100) as usize;
        lost_or_put_in(context, count);
    }
    for _ in 0..context.rounds(120_000) {
        let length = context.inputs.below(12) as usize;
        let bytes: Vec<u8> = (0..length).map(|_| context.inputs.word() as u8).collect();
        let (bound, opening) = (context.inputs.bound(), context.inputs.opening());
        let limit = context.inputs.below(10) as usize;
        whatever(context, &bytes, limit, (bound, opening));
    }
}

/// The values of an upload with its bytes, bound and opening.
fn sent(context: &mut Context, count: usize) -> (Vec<u8>, (ErrorBound, Opening)) {
    let values = context.inputs.values(count);
    let (bound, opening) = (context.inputs.bound_for(&values), context.inputs.opening());
    let stream = Stream::new(context, bound, opening, &values);
    (stream.bytes, (bound, opening))
}

/// A limit about the count, or the most.
fn limit_about(context: &mut Context, count: usize) -> usize {
    let limits = [count, count, count + 1, count + 8, count / 2, MOST_VALUES];
    context.inputs.pick(&limits)
}

/// With each bit turned, and cut behind it.
fn turned(context: &mut Context, count: usize) {
    let (bytes, opened) = sent(context, count);
    for place in 0..8 * bytes.len() {
        let mut bytes = bytes.clone();
        bytes[place / 8] ^= 128 >> (place % 8);
        let behind = (bytes.len() - place / 8) as u64;
        bytes.truncate(place / 8 + 1 + context.inputs.below(behind) as usize);
        let limit = limit_about(context, count);
        whatever(context, &bytes, limit, opened);
    }
}

/// With a byte lost or put in anywhere, or damaged at an end, and cut anywhere.
fn lost_or_put_in(context: &mut Context, count: usize) {
    let (mut bytes, opened) = sent(context, count);
    let size = bytes.len() as u64;
    let at = context.inputs.below(size + 1) as usize;
    match context.inputs.below(3) {
        0 if at < bytes.len() => _ = bytes.remove(at),
        1 => bytes.insert(at, context.inputs.word() as u8),
        _ => context.inputs.damage(&mut bytes),
    }
    if context.inputs.flip() {
        bytes.truncate(context.inputs.below(size + 2) as usize);
    }
    let limit = limit_about(context, count);
    whatever(context, &bytes, limit, opened);
}

/// Rescued, with other bytes behind it. What the bits alone give is what must be answered.
fn whatever(
    context: &mut Context,
    bytes: &[u8],
    limit: usize,
    (error_bound, opening): (ErrorBound, Opening),
) {
    let rescue = Rescue {
        used: bytes.len(),
        limit,
        opening,
        error_bound,
    };
    let buffer = [bytes, &[STALE; 3]].concat();
    let (fault, left) = every_way(context, &buffer, &rescue);
    let kept = (fault == Fault::ACCEPTED).then(|| left.row[9] as usize);
    let input = || format!("whatever arrived {rescue:X?} of {bytes:02X?}");
    let expected = match shape::refusal_of(bytes, limit, opening) {
        Some(cut) if cut.number == ENDS_EARLY => (Fault::ACCEPTED, Some(cut.value)),
        Some(more) if more.number == LEFTOVER => (Fault::ACCEPTED, Some(limit)),
        Some(damage) => (face::fault(damage), None),
        None => (Fault::ACCEPTED, Some(limit)),
    };
    context.same("the bits", expected, (fault, kept), input);
    if let Some(kept) = kept {
        is_a_stream(context, &rescue, left, kept);
    }
}

/// What is kept reopens at its end as it is, and written on, it has its own table.
fn is_a_stream(context: &mut Context, rescue: &Rescue, mut left: Writer, kept: usize) {
    let used = left.row[8].div_ceil(8) as usize;
    let handed = arrived(rescue);
    let at = At {
        used,
        count: kept,
        k: kept,
        opening: handed.opening,
        bound: handed.bound,
    };
    let stale = [STALE_WORD; STATE_WORDS + 1];
    let reopened = plain::reopened(context, &left.buffer, at, &stale);
    let input = || format!("kept of {rescue:X?}: {left:X?}");
    let own = (Fault::ACCEPTED, left.row.clone(), left.buffer.clone());
    context.same("reopened", own, reopened, input);
    let values = context
        .inputs
        .values(MOST_VALUES.saturating_sub(kept).min(3));
    left.buffer.resize(left.buffer.len() + room_for(3), STALE);
    left.table.words.extend([STALE_WORD; ENTRY_WORDS]);
    let (fault, after) = written(context, &left, &values);
    let used = after.row[8].div_ceil(8) as usize;
    let count = kept + values.len();
    let stream = (&after.buffer[..used], count, opening_words(rescue.opening));
    let check = checked(context, stream, &after.table);
    context.same("written on", [Fault::ACCEPTED; 2], [fault, check], || {
        format!("written on {values:08X?} behind {rescue:X?}: {left:X?}")
    });
}
