//! Any words: in the entry that a range starts from, in a table that is checked, and in a writer's row, with any
//! number of entries.

use super::Tabled;
use super::both::{self, Table, Writer};
use crate::context::Context;
use crate::lent::{STALE, STALE_VALUE, STALE_WORD};
use crate::parts::library_stream::states::{WORDS, any_state};
use modelardb_rattle::ffi::{ENTRY_WORDS, VALUES_PER_ENTRY};

pub fn words(context: &mut Context) {
    for _ in 0..context.rounds(12) {
        let count = 60 + context.inputs.below(10) as usize;
        let tabled = Tabled::any(context, count);
        for place in 0..tabled.table.words.len() {
            for word in WORDS {
                let mut table = tabled.table.clone();
                table.words[place] = word;
                in_a_table(context, &tabled, &table, place / ENTRY_WORDS);
            }
        }
    }
    for _ in 0..context.rounds(60_000) {
        in_an_entry(context);
    }
    for _ in 0..context.rounds(60_000) {
        in_a_row(context);
    }
}

/// Checked, and read from the entry on.
fn in_a_table(context: &mut Context, tabled: &Tabled, table: &Table, entry: usize) {
    let (stream, count) = (tabled.stored(), tabled.count());
    both::checked(context, stream, table);
    let p = VALUES_PER_ENTRY * entry;
    let q = count.min(p + 5);
    both::ranged(context, stream, table, p..q, &[STALE_VALUE; 5]);
}

/// Any bytes, read from an entry that a stream can have, with none to two of its words changed.
fn in_an_entry(context: &mut Context) {
    let inputs = &mut context.inputs;
    let size = inputs.below(10);
    let bytes: Vec<u8> = (0..size).map(|_| inputs.word() as u8).collect();
    let leading = inputs.below(32);
    let trailing = inputs.below(32 - leading);
    let has_window = inputs.flip();
    let mut entry = [
        inputs.below(8 * size + 2),
        inputs.value().into(),
        if has_window { leading } else { 255 },
        if has_window { trailing } else { 0 },
    ];
    for _ in 0..inputs.below(3) {
        let place = inputs.below(ENTRY_WORDS as u64) as usize;
        entry[place] = match inputs.below(3) {
            0 => inputs.word(),
            1 => entry[place].wrapping_add(inputs.below(3)).wrapping_sub(1),
            _ => inputs.pick(&WORDS),
        };
    }
    let number = inputs.below(3) as usize;
    let words = [vec![STALE_WORD; ENTRY_WORDS * number], entry.to_vec()].concat();
    let p = VALUES_PER_ENTRY * number + inputs.pick(&[0, 0, 1, 2]);
    let q = p + inputs.below(4) as usize;
    let count = q + inputs.below(3) as usize - usize::from(q > p && inputs.below(8) == 0);
    let opening = (inputs.pick(&[0, 0, 1, 1, 1, 2]), inputs.value());
    let room = q - p + inputs.below(2) as usize;
    let entries = number + inputs.pick(&[1, 1, 1, 1, 0, 2]);
    let table = Table::new(&words, entries);
    let stream = (&bytes[..], count, opening);
    both::ranged(context, stream, &table, p..q, &vec![STALE_VALUE; room]);
}

/// A row that may stand for a writer, and a table about the size that its length asks for.
fn in_a_row(context: &mut Context) {
    let (row, mut buffer) = any_state(context);
    let inputs = &mut context.inputs;
    let length = row.get(9).copied().unwrap_or(0).min(200);
    let own = length.div_ceil(VALUES_PER_ENTRY as u64) as usize;
    let entries = inputs.pick(&[own, own, own, own + 1, own.saturating_sub(1), usize::MAX]);
    let words = ENTRY_WORDS * (own + inputs.below(3) as usize) + inputs.below(4) as usize;
    let more = inputs.pick(&[0, 1, 4, 60, 64]);
    let spare = inputs.below(6 * more as u64 + 4) as usize;
    buffer.extend(vec![STALE; spare]);
    let before = Writer {
        row,
        buffer,
        table: Table::new(&vec![STALE_WORD; words], entries),
    };
    let values = inputs.values(more);
    both::written(context, &before, &values);
}
