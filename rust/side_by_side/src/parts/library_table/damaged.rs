//! Damaged streams with the table of the sound one: each bit flipped, cut anywhere, a byte more, other counts. What
//! stands before the entry or behind the range is not looked at. Where a damaged stream is accepted all the same, its
//! own table reads its ranges, and written on it has its own table again.

use super::both::{self, Stored, Table, Writer};
use super::{Tabled, ranges};
use crate::context::Context;
use crate::lent::{STALE, STALE_VALUE, STALE_WORD};
use crate::parts::library_stream::room_for;
use modelardb_rattle::Fault;
use modelardb_rattle::ffi::{ENTRY_WORDS, STATE_WORDS, VALUES_PER_ENTRY, Words};
use oracle::paper::macaque_v::Opening;
use oracle::paper::place_table::table_in;
use std::ops::Range;

pub fn damaged(context: &mut Context) {
    for count in [130, 150] {
        let tabled = Tabled::any(context, count);
        for place in 0..8 * tabled.stream.bytes.len() {
            let mut bytes = tabled.stream.bytes.clone();
            bytes[place / 8] ^= 128 >> (place % 8);
            outside(context, &tabled, &bytes, place..place + 1);
        }
        for used in 0..tabled.stream.bytes.len() {
            let cut = &tabled.stream.bytes[..used];
            outside(context, &tabled, cut, 8 * used..usize::MAX);
        }
    }
    for _ in 0..context.rounds(600) {
        let count = 1 + context.inputs.below(140) as usize;
        let tabled = Tabled::any(context, count);
        let mut bytes = tabled.stream.bytes.clone();
        context.inputs.damage(&mut bytes);
        let other = context.inputs.pick(&[count, count, count - 1, count + 1]);
        beside(context, &tabled, &bytes, other);
    }
}

/// The calls on a damaged stream with the sound one's table, and that stream with its own.
fn beside(context: &mut Context, tabled: &Tabled, bytes: &[u8], count: usize) {
    let opening = tabled.stream.opening;
    let stream = (bytes, count, opening);
    both::checked(context, stream, &tabled.table);
    for _ in 0..4 {
        let q = context.inputs.below(count as u64 + 1) as usize;
        let p = context.inputs.below(q as u64 + 1) as usize;
        let out = vec![STALE_VALUE; q - p];
        both::ranged(context, stream, &tabled.table, p..q, &out);
    }
    let mut before = tabled.writer(tabled.table.clone());
    before.buffer = bytes.to_vec();
    before.row = vec![STALE_WORD; STATE_WORDS];
    let mut at = tabled.stream.at(count / 2);
    (at.used, at.count) = (bytes.len(), count);
    both::reopened(context, &before, at);
    if let Ok(own) = table_in(bytes, count, opening_of(opening)) {
        let own = Table::new(&own.concat(), own.len());
        written_on(context, tabled, stream, &own);
        if context.inputs.below(20) == 0 {
            ranges::all(context, stream, &own);
        }
    }
}

/// Any accepted stream, beside its own table, reopened at any value and written on over one entry or two: what it has
/// then is its own table again.
fn written_on(context: &mut Context, tabled: &Tabled, stream: Stored, own: &Table) {
    let (bytes, count, opening) = stream;
    let k = context.inputs.below(count as u64 + 1) as usize;
    let values = context.inputs.values(VALUES_PER_ENTRY + 6);
    let mut table = own.clone();
    table.words.extend([STALE_WORD; 2 * ENTRY_WORDS]);
    let before = Writer {
        row: vec![STALE_WORD; STATE_WORDS],
        buffer: [bytes, &vec![STALE; room_for(values.len())]].concat(),
        table,
    };
    let mut at = tabled.stream.at(k);
    (at.used, at.count) = (bytes.len(), count);
    let (_, left) = both::reopened(context, &before, at);
    let (fault, left) = both::written(context, &left, &values);
    let used = left.row[8].div_ceil(8) as usize;
    let after = (&left.buffer[..used], k + values.len(), opening);
    let checked = both::checked(context, after, &left.table);
    let accepted = (Fault::ACCEPTED, Fault::ACCEPTED);
    context.same("its own table again", accepted, (fault, checked), || {
        format!("{stream:X?} reopened at {k} with {own:X?}, and written on {values:08X?}")
    });
}

fn opening_of((mode, value): Words) -> Opening {
    match mode {
        0 => Opening::WithFirst,
        _ => Opening::On(value),
    }
}

/// A stream that is altered in some places: of each entry's values, a range that ends before them or begins at an
/// entry behind them is as it was.
fn outside(context: &mut Context, tabled: &Tabled, bytes: &[u8], altered: Range<usize>) {
    let count = tabled.count();
    let stream = (bytes, count, tabled.stream.opening);
    let values = tabled.values(context);
    both::checked(context, stream, &tabled.table);
    let places = tabled.table.words.iter().step_by(ENTRY_WORDS);
    let places: Vec<usize> = places.map(|&place| place as usize).collect();
    for (entry, &place) in places.iter().enumerate() {
        let p = VALUES_PER_ENTRY * entry + context.inputs.below(2) as usize;
        let q = count.min(VALUES_PER_ENTRY * (entry + 1));
        let end = places.get(entry + 1).copied();
        let end = end.unwrap_or(tabled.stream.row[8] as usize);
        let asked = p.min(q)..q;
        let out = vec![STALE_VALUE; asked.len()];
        let read = both::ranged(context, stream, &tabled.table, asked.clone(), &out);
        if altered.end <= place || end <= altered.start {
            let sound = (Fault::ACCEPTED, values[asked.clone()].to_vec());
            let input = || format!("range {asked:?}, altered {altered:?}: {bytes:02X?}");
            context.same("the sound stream", sound, read, input);
        }
    }
}
