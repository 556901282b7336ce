//! Any chain of writes, stops and resumes ends with the bytes, the state and the table of one fresh run.

use super::both::{self, Writer};
use super::{Tabled, room};
use crate::context::Context;
use crate::lent::{STALE, STALE_WORD};
use crate::parts::library_stream::both::At;
use modelardb_rattle::Fault;
use modelardb_rattle::ffi::{ENTRY_WORDS, STATE_WORDS};
use oracle::paper::MOST_VALUES;
use oracle::paper::place_table::entries_for;

pub fn resumed(context: &mut Context) {
    for count in [1, 65, 130] {
        let tabled = Tabled::any(context, count);
        for k in 0..=count {
            at_value(context, &tabled, k);
        }
    }
    for count in [2_100, MOST_VALUES] {
        let tabled = Tabled::any(context, count);
        for k in [0, 1, 63, 64, 65, 1_024, count - 1, count] {
            at_value(context, &tabled, k);
        }
    }
    for _ in 0..context.rounds(300) {
        let count = context.inputs.below(280) as usize;
        let tabled = Tabled::any(context, count);
        chain(context, &tabled);
    }
}

/// Reopened at k with stale words behind the table, which is cut there, and written on.
fn at_value(context: &mut Context, tabled: &Tabled, k: usize) {
    let mut before = tabled.writer(tabled.table.clone());
    before.row = vec![STALE_WORD; STATE_WORDS + 1];
    before.table.words.extend([STALE_WORD; 3]);
    let (_, left) = both::reopened(context, &before, tabled.stream.at(k));
    let input = || format!("reopened at {k}: {:08X?}", tabled.stream.values);
    context.same("entries", entries_for(k), left.table.entries, input);
    let (_, left) = both::written(context, &left, &tabled.stream.values[k..]);
    in_one_run(context, tabled, left, &format!("at {k}"));
}

/// Writes of any length, and resumes at any value, until all values are written.
fn chain(context: &mut Context, tabled: &Tabled) {
    let (stream, count) = (&tabled.stream, tabled.count());
    let more = context.inputs.below(6) as usize;
    let mut writer = Writer {
        row: stream.fresh.clone(),
        buffer: vec![STALE; stream.bytes.len() + more],
        table: room(count, more),
    };
    let (mut done, mut links) = (0, String::new());
    while done < count || context.inputs.below(3) > 0 {
        if done > 0 && context.inputs.below(3) == 0 {
            let used = writer.row[8].div_ceil(8) as usize;
            let k = context.inputs.below(done as u64 + 1) as usize;
            let at = At {
                used,
                count: done,
                ..stream.at(k)
            };
            (_, writer) = both::reopened(context, &writer, at);
            done = k;
        } else {
            let most = (count - done).min(90) as u64;
            let end = done + context.inputs.below(most + 1) as usize;
            (_, writer) = both::written(context, &writer, &stream.values[done..end]);
            done = end;
        }
        links += &format!(" {done}");
    }
    in_one_run(context, tabled, writer, &links);
}

/// What is in use is that of one fresh run.
pub fn in_one_run(context: &mut Context, tabled: &Tabled, mut left: Writer, how: &str) {
    left.row.truncate(STATE_WORDS);
    left.buffer.truncate(left.row[8].div_ceil(8) as usize);
    left.table.words.truncate(ENTRY_WORDS * left.table.entries);
    let one_run = (&tabled.stream.row, &tabled.stream.bytes, &tabled.table);
    let input = || format!("resumed {how}: {:08X?}", tabled.stream.values);
    context.same(
        "one run",
        one_run,
        (&left.row, &left.buffer, &left.table),
        input,
    );
    let stored = tabled.stored();
    let checked = both::checked(context, stored, &left.table);
    context.same("the check", Fault::ACCEPTED, checked, input);
}
