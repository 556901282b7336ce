//! Ranges of tables that the check accepts: for all p ≤ q of small counts, and at every edge of larger ones, they
//! are that part of the whole reading.

use super::both::{self, Stored, Table};
use super::{Tabled, whole};
use crate::context::Context;
use crate::lent::STALE_VALUE;
use modelardb_rattle::Fault;
use oracle::paper::MOST_VALUES;
use oracle::paper::refusal::{COUNTS, OUTPUT};
use std::ops::Range;

pub fn ranges(context: &mut Context) {
    for count in [0, 1, 2, 63, 64, 65, 66, 129] {
        let tabled = Tabled::any(context, count);
        all(context, tabled.stored(), &tabled.table);
    }
    for _ in 0..context.rounds(20) {
        let count = context.inputs.below(80) as usize;
        let tabled = Tabled::any(context, count);
        all(context, tabled.stored(), &tabled.table);
    }
    for count in [0, 1, 63, 64, 65, 127, 128, 129, 200, 1_025, 2_100] {
        let tabled = Tabled::any(context, count);
        at_edges(context, &tabled);
    }
    the_longest(context);
}

/// The law: the check accepts the table, so every range is that part of the whole reading.
pub fn all(context: &mut Context, stream: Stored, table: &Table) {
    let input = || format!("all ranges of {stream:X?} {table:X?}");
    let checked = both::checked(context, stream, table);
    context.same("the check", Fault::ACCEPTED, checked, input);
    let (_, values) = whole(context, stream);
    for q in 0..=stream.1 {
        for p in 0..=q {
            is_part(context, stream, table, p..q, &values);
        }
    }
}

/// Behind the range the output keeps what it held.
fn is_part(
    context: &mut Context,
    stream: Stored,
    table: &Table,
    asked: Range<usize>,
    values: &[u32],
) {
    let more = context.inputs.below(3) as usize;
    let out = vec![STALE_VALUE; asked.len() + more];
    let part = [&values[asked.clone()], &out[..more]].concat();
    let (fault, left) = both::ranged(context, stream, table, asked.clone(), &out);
    let input = || format!("range {asked:?} of {stream:X?} {table:X?}");
    context.same("that part", (Fault::ACCEPTED, part), (fault, left), input);
}

/// Each pair of edges, with a room that is just enough, and with one too short.
fn at_edges(context: &mut Context, tabled: &Tabled) {
    let (stream, table, count) = (tabled.stored(), &tabled.table, tabled.count());
    let values = tabled.values(context);
    let edges = [
        0,
        1,
        63,
        64,
        65,
        127,
        128,
        count.saturating_sub(1),
        count,
        count + 1,
        count + 64,
        1 << 32,
        usize::MAX,
    ];
    for p in edges {
        for q in edges {
            if p <= q && q <= count {
                is_part(context, stream, table, p..q, &values);
                too_short(context, stream, table, p..q);
            } else {
                let (fault, _) = both::ranged(context, stream, table, p..q, &[STALE_VALUE; 3]);
                let input = || format!("range {p} to {q} of {count}");
                context.same("the order", Fault::from(COUNTS), fault, input);
            }
        }
    }
}

fn too_short(context: &mut Context, stream: Stored, table: &Table, asked: Range<usize>) {
    for room in [asked.len().saturating_sub(1), 0] {
        let out = vec![STALE_VALUE; room];
        let (fault, _) = both::ranged(context, stream, table, asked.clone(), &out);
        let short = if asked.is_empty() { 0 } else { OUTPUT };
        let input = || format!("range {asked:?} into {room} of {stream:X?}");
        context.same("the order", Fault::from(short), fault, input);
    }
}

/// The longest stream, at its begin, in the middle, at its end, and as a whole.
fn the_longest(context: &mut Context) {
    let tabled = Tabled::any(context, MOST_VALUES);
    let (stream, table) = (tabled.stored(), &tabled.table);
    let values = tabled.values(context);
    for q in [
        1,
        64,
        65,
        1_088,
        1_089,
        32_000,
        MOST_VALUES - 1,
        MOST_VALUES,
    ] {
        for length in [0, 1, 12, 64, 1_024, 1_025] {
            is_part(context, stream, table, q.saturating_sub(length)..q, &values);
        }
    }
    for p in [0, 1, 64] {
        is_part(context, stream, table, p..MOST_VALUES, &values);
        too_short(context, stream, table, p..MOST_VALUES);
    }
    let checked = both::checked(context, stream, table);
    context.same("the check", Fault::ACCEPTED, checked, || {
        "the longest stream's table".to_string()
    });
}
