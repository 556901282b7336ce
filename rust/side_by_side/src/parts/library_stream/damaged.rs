//! Damaged streams: each bit flipped, cut anywhere, a byte more, wrong counts, any bytes. They are
//! drawn, summed and reopened; one that is accepted all the same is written on.

use super::both::At;
use super::{Stream, both, room_for};
use crate::context::Context;
use crate::lent::{STALE, STALE_VALUE, STALE_WORD};
use modelardb_rattle::Fault;
use modelardb_rattle::ffi::STATE_WORDS;

pub fn damaged(context: &mut Context) {
    for _ in 0..context.rounds(1_000) {
        let count = 1 + context.inputs.below(12) as usize;
        every_damage(context, count);
    }
    for _ in 0..context.rounds(4) {
        every_damage(context, 100);
    }
    for count in [1_024, 1_025, 2_100] {
        some_damage(context, count);
    }
    for _ in 0..context.rounds(200_000) {
        let length = context.inputs.below(12) as usize;
        let bytes: Vec<u8> = (0..length).map(|_| context.inputs.word() as u8).collect();
        let count = context.inputs.below(8) as usize;
        let (bound, opening) = (context.inputs.bound(), context.inputs.opening());
        let at = At {
            used: length,
            count,
            k: 0,
            opening: crate::face::opening_words(opening),
            bound: crate::face::bound_words(bound),
        };
        used_as_it_is(context, &bytes, at);
    }
}

fn every_damage(context: &mut Context, count: usize) {
    let stream = Stream::any(context, count);
    for place in 0..8 * stream.bytes.len() {
        flipped(context, &stream, place);
    }
    for used in 0..stream.bytes.len() {
        cut(context, &stream, used);
    }
    with_others(context, &stream);
}

/// Of a longer stream, which the library reads in several goes: places anywhere, and its last ones.
fn some_damage(context: &mut Context, count: usize) {
    let stream = Stream::any(context, count);
    let bits = 8 * stream.bytes.len();
    for place in bits.saturating_sub(60)..bits {
        flipped(context, &stream, place);
    }
    for _ in 0..200 {
        let place = context.inputs.below(bits as u64) as usize;
        flipped(context, &stream, place);
        cut(context, &stream, place / 8);
    }
    with_others(context, &stream);
}

/// With one bit turned.
pub(super) fn flipped(context: &mut Context, stream: &Stream, place: usize) {
    let mut bytes = stream.bytes.clone();
    bytes[place / 8] ^= 128 >> (place % 8);
    used_as_it_is(context, &bytes, stream.at(0));
}

/// With only its first bytes.
pub(super) fn cut(context: &mut Context, stream: &Stream, used: usize) {
    let whole = stream.at(0);
    used_as_it_is(context, &stream.bytes[..used], At { used, ..whole });
}

/// With a byte more, and with other counts.
fn with_others(context: &mut Context, stream: &Stream) {
    let (bytes, whole, count) = (&stream.bytes, stream.at(0), stream.count());
    for more in [0x00, 0x01, 0x80, 0xFF] {
        let longer = [&bytes[..], &[more]].concat();
        let used = longer.len();
        used_as_it_is(context, &longer, At { used, ..whole });
    }
    for other in [0, count - 1, count + 1, count + 8] {
        let at = At {
            count: other,
            ..whole
        };
        used_as_it_is(context, bytes, at);
    }
}

/// Draws, sums and reopens what may be a stream.
pub(super) fn used_as_it_is(context: &mut Context, bytes: &[u8], at: At) {
    let out = vec![STALE_VALUE; at.count];
    both::read(context, both::GRID, (bytes, at.count, at.opening), &out);
    both::read(
        context,
        both::SUM,
        (bytes, at.count, at.opening),
        &[STALE_VALUE],
    );
    let k = context.inputs.below(at.count as u64 + 1) as usize;
    let buffer = [bytes, &[STALE; 3]].concat();
    let row = [STALE_WORD; STATE_WORDS];
    let (fault, row, buffer) = both::reopened(context, &buffer, At { k, ..at }, &row);
    if fault == Fault::ACCEPTED {
        written_on(context, &row, buffer, k, at);
    }
}

/// What is written behind the first k values of an accepted stream reads back behind them.
fn written_on(context: &mut Context, row: &[u64], mut buffer: Vec<u8>, k: usize, at: At) {
    let values = context.inputs.values(2);
    buffer.resize(buffer.len() + room_for(2), STALE);
    let (_, row, buffer) = both::written(context, row, &values, &buffer);
    let used = row[8].div_ceil(8) as usize;
    let out = vec![STALE_VALUE; k + 2];
    let (fault, _) = both::read(
        context,
        both::GRID,
        (&buffer[..used], k + 2, at.opening),
        &out,
    );
    let input = || format!("written on at {k}: {at:X?} {buffer:02X?}");
    context.same("read back", Fault::ACCEPTED, fault, input);
}
