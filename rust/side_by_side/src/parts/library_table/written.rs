//! Lists written with a table: in one go and in pieces, with just enough room and with too little, by the safe
//! type, and behind a wrong table, which is carried on.

use super::{Tabled, both, room, safe};
use crate::context::Context;
use crate::lent::STALE;
use crate::parts::library_stream::Stream;
use crate::parts::macaque_v::BOUNDS;
use both::{Table, Writer};
use modelardb_rattle::Fault;
use modelardb_rattle::ffi::ENTRY_WORDS;
use oracle::paper::MOST_VALUES;
use oracle::paper::macaque_v::Opening;
use oracle::paper::refusal::OUTPUT;

/// Around the entries, around what the library reads at once, and around the limit.
const LENGTHS: [usize; 17] = [
    0,
    1,
    2,
    63,
    64,
    65,
    127,
    128,
    129,
    192,
    1_023,
    1_024,
    1_025,
    2_100,
    MOST_VALUES - 1,
    MOST_VALUES,
    MOST_VALUES + 1,
];

pub fn written(context: &mut Context) {
    for count in LENGTHS {
        let any = context.inputs.value();
        for opening in [Opening::WithFirst, Opening::On(any)] {
            let values = context.inputs.values(count);
            let bound = context.inputs.bound();
            let tabled = Tabled::new(context, bound, opening, &values);
            if count <= MOST_VALUES {
                every_way(context, &tabled);
                safe::written(context, bound, opening, &tabled);
            }
        }
    }
    for bound in BOUNDS {
        for opening in [Opening::WithFirst, Opening::On(0x3F80_0000)] {
            let values = context.inputs.values(150);
            let tabled = Tabled::new(context, bound, opening, &values);
            every_way(context, &tabled);
            safe::written(context, bound, opening, &tabled);
        }
    }
    for _ in 0..context.rounds(400) {
        let count = context.inputs.below(260) as usize;
        let tabled = Tabled::any(context, count);
        every_way(context, &tabled);
    }
}

fn every_way(context: &mut Context, tabled: &Tabled) {
    just_enough(context, tabled);
    in_pieces(context, tabled);
    carried_on(context, tabled);
    handed_in(context, tabled);
}

/// Lent so many bytes and so many words of a table.
fn lent(tabled: &Tabled, bytes: usize, words: usize) -> Writer {
    Writer {
        row: tabled.stream.fresh.clone(),
        buffer: vec![0xFF; bytes],
        table: Table::new(&vec![0xFF; words], 0),
    }
}

/// In a buffer and a table of their own size, and where either is short of that.
fn just_enough(context: &mut Context, tabled: &Tabled) {
    let (bytes, words) = (tabled.stream.bytes.len(), tabled.table.words.len());
    let values = &tabled.stream.values;
    let (fault, left) = both::written(context, &lent(tabled, bytes, words), values);
    let input = || format!("just enough: {values:08X?}");
    context.same("just enough", Fault::ACCEPTED, fault, input);
    context.same("just enough", &tabled.table, &left.table, input);
    let mut short = vec![];
    if bytes > 0 {
        short.push((bytes - 1, words));
    }
    for less in 1..=ENTRY_WORDS {
        short.extend(words.checked_sub(less).map(|words| (bytes, words)));
    }
    for (bytes, words) in short {
        let (fault, _) = both::written(context, &lent(tabled, bytes, words), values);
        context.same("too short", Fault::from(OUTPUT), fault, input);
    }
}

/// In pieces, some of them empty, they are those of one go.
fn in_pieces(context: &mut Context, tabled: &Tabled) {
    let count = tabled.count();
    let mut writer = lent(tabled, tabled.stream.bytes.len(), 0);
    writer.table = room(count, context.inputs.below(6) as usize);
    let mut rest = &tabled.stream.values[..];
    let most = context.inputs.pick(&[3, 70, 1 + count as u64]) + count as u64 / 50;
    while !rest.is_empty() {
        let length = context.inputs.below(most + 1).min(rest.len() as u64);
        let (piece, others) = rest.split_at(length as usize);
        (_, writer) = both::written(context, &writer, piece);
        rest = others;
    }
    writer.table.words.truncate(tabled.table.words.len());
    let one_go = (&tabled.stream.row, &tabled.stream.bytes, &tabled.table);
    let pieces = (&writer.row, &writer.buffer, &writer.table);
    let input = || format!("in pieces of up to {most}: {:08X?}", tabled.stream.values);
    context.same("pieces", one_go, pieces, input);
}

/// The words that are in use are not looked at, and stay.
fn carried_on(context: &mut Context, tabled: &Tabled) {
    let words = tabled.table.words.len();
    let wrong = vec![u64::MAX - 1; words + 2 * ENTRY_WORDS];
    let mut before = tabled.writer(Table::new(&wrong, tabled.table.entries));
    before.buffer.extend([STALE; 600]);
    let more = 1 + context.inputs.below(80) as usize;
    let values = context.inputs.values(more);
    let (fault, left) = both::written(context, &before, &values);
    if fault == Fault::ACCEPTED {
        let input = || format!("carried on {values:08X?}");
        let front = &left.table.words[..words];
        context.same("carried on", &wrong[..words], front, input);
    }
}

/// Before a raw first value a state may hold any last value: the table is the stream's own all the same.
fn handed_in(context: &mut Context, tabled: &Tabled) {
    let Stream { bytes, values, .. } = &tabled.stream;
    let mut before = lent(tabled, bytes.len(), tabled.table.words.len());
    if values.is_empty() || before.row[7] == 0 {
        return;
    }
    before.row[4] = context.inputs.value().into();
    let (_, left) = both::written(context, &before, values);
    let input = || format!("a last value {:08X} before {values:08X?}", before.row[4]);
    let own = (&tabled.stream.row, bytes, &tabled.table);
    let left = (&left.row, &left.buffer, &left.table);
    context.same("handed in", own, left, input);
}
