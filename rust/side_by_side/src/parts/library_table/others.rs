//! Tables that are not the stream's: of another stream, shifted, swapped, with one bit flipped, too short, too
//! long. Each call must answer as the paper's does, and the check accepts none of them.

use super::Tabled;
use super::both::{self, Table};
use crate::context::Context;
use crate::lent::{STALE_VALUE, STALE_WORD};
use modelardb_rattle::Fault;
use modelardb_rattle::ffi::{ENTRY_WORDS, STATE_WORDS};
use oracle::paper::refusal::{COUNTS, TABLE};

/// How many bits a word has.
const WORD: usize = 64;

pub fn others(context: &mut Context) {
    for count in [1, 64, 65, 128, 150] {
        let tabled = Tabled::any(context, count);
        flipped(context, &tabled);
    }
    for _ in 0..context.rounds(150) {
        let count = context.inputs.below(300) as usize;
        let tabled = Tabled::any(context, count);
        let other = Tabled::any(context, count);
        let words = &tabled.table.words;
        let mut tables = vec![other.table.words.clone()];
        tables.extend(shifted(words));
        tables.extend(swapped(words));
        for words in tables {
            let table = Table::new(&words, tabled.table.entries);
            used_beside(context, &tabled, &table);
        }
        of_other_sizes(context, &tabled);
    }
}

/// Each bit of each word of each entry.
fn flipped(context: &mut Context, tabled: &Tabled) {
    for bit in 0..WORD * tabled.table.words.len() {
        let mut table = tabled.table.clone();
        table.words[bit / WORD] ^= 1 << (bit % WORD);
        used_beside(context, tabled, &table);
    }
}

/// Each entry where the next, or the last, should be.
fn shifted(words: &[u64]) -> Vec<Vec<u64>> {
    let (mut left, mut right) = (words.to_vec(), words.to_vec());
    left.rotate_left(ENTRY_WORDS.min(words.len()));
    right.rotate_right(ENTRY_WORDS.min(words.len()));
    vec![left, right]
}

/// Two entries in each other's place, and two words of an entry.
fn swapped(words: &[u64]) -> Vec<Vec<u64>> {
    let mut tables = vec![];
    for entry in 1..words.len() / ENTRY_WORDS {
        let mut table = words.to_vec();
        let (front, back) = table.split_at_mut(ENTRY_WORDS * entry);
        front[..ENTRY_WORDS].swap_with_slice(&mut back[..ENTRY_WORDS]);
        tables.push(table);
        let mut table = words.to_vec();
        table.swap(ENTRY_WORDS * entry, ENTRY_WORDS * entry + 1);
        tables.push(table);
    }
    tables
}

/// Entries in use and words lent that are more or fewer than there are.
fn of_other_sizes(context: &mut Context, tabled: &Tabled) {
    let own = &tabled.table;
    let longer = [&own.words[..], &[STALE_WORD; 9]].concat();
    let lengths = [
        0,
        own.words.len().saturating_sub(ENTRY_WORDS),
        own.words.len().saturating_sub(1),
        own.words.len(),
        own.words.len() + 1,
        own.words.len() + ENTRY_WORDS,
        own.words.len() + 9,
    ];
    for length in lengths {
        let in_use = own.entries;
        for entries in [0, in_use.saturating_sub(1), in_use, in_use + 1, usize::MAX] {
            used_beside(context, tabled, &Table::new(&longer[..length], entries));
        }
    }
}

/// Checked, read by ranges, reopened and written on.
fn used_beside(context: &mut Context, tabled: &Tabled, table: &Table) {
    let (stream, count) = (tabled.stored(), tabled.count());
    let checked = both::checked(context, stream, table);
    let held = table.words.get(..ENTRY_WORDS.saturating_mul(table.entries));
    let cause = match held {
        None => COUNTS,
        Some(words) if words == tabled.table.words => 0,
        Some(_) => TABLE,
    };
    context.same("another table", Fault::from(cause), checked, || {
        format!("{table:X?} beside {:X?}", tabled.table)
    });
    for _ in 0..3 {
        let q = context.inputs.below(count as u64 + 1) as usize;
        let p = context.inputs.below(q as u64 + 1) as usize;
        let out = vec![STALE_VALUE; q - p];
        both::ranged(context, stream, table, p..q, &out);
    }
    let k = context.inputs.below(count as u64 + 1) as usize;
    let mut before = tabled.writer(table.clone());
    let values = context.inputs.values(2);
    both::written(context, &before, &values);
    before.row = vec![STALE_WORD; STATE_WORDS];
    let (fault, left) = both::reopened(context, &before, tabled.stream.at(k));
    if fault == Fault::ACCEPTED {
        both::written(context, &left, &values);
    }
}
