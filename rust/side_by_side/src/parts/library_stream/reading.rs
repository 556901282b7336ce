//! The reader: streams read value by value, whole, damaged and with any bits in its row.

use super::states::WORDS;
use super::{Stream, both};
use crate::context::Context;
use crate::face;
use crate::inputs::ONE;
use crate::lent::{
    BYTE_GUARD, Left, Lent, STALE_VALUE, STALE_WORD, VALUE_GUARD, WORD_GUARD, compared, to_read,
};
use modelardb_rattle::Fault;
use modelardb_rattle::ffi::{self, READER_WORDS, Words};
use oracle::paper::MOST_VALUES;

pub fn reading(context: &mut Context) {
    for mode in 0..4 {
        for words in 0..READER_WORDS + 3 {
            opened(context, (mode, 0x3F80_0000), &vec![STALE_WORD; words]);
        }
    }
    for _ in 0..context.rounds(3_000) {
        let count = context.inputs.below(24) as usize;
        let stream = Stream::any(context, count);
        read_through(context, &stream.bytes, count, stream.opening);
        let mut bytes = stream.bytes.clone();
        context.inputs.damage(&mut bytes);
        read_through(context, &bytes, count + 1, stream.opening);
    }
    for _ in 0..context.rounds(300_000) {
        let (bytes, row) = any_row(context);
        let room = context.inputs.below(3) as usize;
        let words = context.inputs.below(4) as usize;
        let row = [&row[..], &vec![STALE_WORD; words]].concat();
        let row = &row[words.min(1)..];
        next(context, &bytes, row, &vec![STALE_VALUE; room]);
        ended(context, &bytes, row);
    }
    most_values(context);
}

/// As many values as are asked for, or up to the first that is refused, and an end behind each: the last
/// value and its refusal are those of reading so many at once.
fn read_through(context: &mut Context, bytes: &[u8], count: usize, opening: Words) {
    let (_, mut row) = opened(context, opening, &[STALE_WORD; READER_WORDS]);
    let mut values = vec![];
    for read in 0..=count {
        let end = ended(context, bytes, &row);
        last(context, bytes, read, opening, &[STALE_VALUE]);
        let (drawn, all) = both::read(
            context,
            both::GRID,
            (bytes, read, opening),
            &vec![STALE_VALUE; read],
        );
        let input = || format!("read {read} of {bytes:02X?} {opening:X?}");
        context.same("grid", drawn, end, input);
        if end == Fault::ACCEPTED {
            context.same("grid", &all, &values, input);
        }
        let (fault, after, out) = next(context, bytes, &row, &[STALE_VALUE]);
        if fault != Fault::ACCEPTED {
            let (drawn, _) = both::read(
                context,
                both::GRID,
                (bytes, read + 1, opening),
                &vec![0; read + 1],
            );
            context.same("grid", drawn, fault, input);
            break;
        }
        values.push(out[0]);
        row = after;
    }
    last(context, bytes, count, opening, &[]);
    last(context, bytes, MOST_VALUES + 1, opening, &[STALE_VALUE; 2]);
    last(context, bytes, count, (2, 0), &[STALE_VALUE]);
}

/// A stream of 65,536 repeats: a next behind them is 3, and an end is not.
fn most_values(context: &mut Context) {
    let stream = vec![0b1010_1010; MOST_VALUES / 4];
    let read = MOST_VALUES as u64 - 1;
    let row = [ONE.into(), 255, 0, 0, 2 * read, read];
    let (_, row, _) = next(context, &stream, &row, &[STALE_VALUE]);
    ended(context, &stream, &row);
    next(context, &stream, &row, &[STALE_VALUE]);
    last(context, &stream, MOST_VALUES, (1, ONE), &[STALE_VALUE]);
}

pub fn opened(context: &mut Context, opening: Words, row: &[u64]) -> Left<u64> {
    compared(
        context,
        (row, WORD_GUARD),
        |row| face::reader::open(opening, row),
        |row| ffi::reader_open(opening, row),
        || format!("reader opened {opening:X?}"),
    )
}

/// What is answered, and what the row and the output hold afterwards.
pub fn next(
    context: &mut Context,
    bytes: &[u8],
    row: &[u64],
    out: &[u32],
) -> (Fault, Vec<u64>, Vec<u32>) {
    let (mut after, mut value) = (row.to_vec(), out.to_vec());
    let fault = face::reader::next(bytes, &mut after, &mut value);
    let mut stream = Lent::new(bytes, BYTE_GUARD);
    let mut lent_row = Lent::new(row, WORD_GUARD);
    let mut lent_out = Lent::new(out, VALUE_GUARD);
    let ours = ffi::reader_next(stream.lend(), lent_row.lend(), lent_out.lend());
    let is_kept = stream.content().as_deref() == Some(bytes);
    let left = (ours, lent_row.content(), lent_out.content(), is_kept);
    let expected = (fault, Some(after.clone()), Some(value.clone()), true);
    let input = || format!("next of {row:X?} in {bytes:02X?} into {out:X?}");
    context.same("library", expected, left, input);
    (fault, after, value)
}

pub fn ended(context: &mut Context, bytes: &[u8], row: &[u64]) -> Fault {
    let (mut row_is_kept, mut bytes_are_kept) = (false, false);
    let ours = to_read((row, WORD_GUARD), &mut row_is_kept, |row| {
        to_read((bytes, BYTE_GUARD), &mut bytes_are_kept, |bytes| {
            ffi::reader_end(bytes, row)
        })
    });
    let fault = face::reader::end(bytes, row);
    let input = || format!("end of {row:X?} in {bytes:02X?}");
    let (expected, left) = ((fault, true, true), (ours, row_is_kept, bytes_are_kept));
    context.same("library", expected, left, input);
    fault
}

pub fn last(
    context: &mut Context,
    bytes: &[u8],
    count: usize,
    opening: Words,
    out: &[u32],
) -> Fault {
    compared(
        context,
        (out, VALUE_GUARD),
        |out| face::reader::last_value(bytes, count, opening, out),
        |out| ffi::reader_last_value(bytes, count, opening, out),
        || format!("last of {count} in {bytes:02X?} {opening:X?}"),
    )
    .0
}

/// Some bytes, and a reader in them, with none to two of its words changed.
fn any_row(context: &mut Context) -> (Vec<u8>, Vec<u64>) {
    let inputs = &mut context.inputs;
    let size = inputs.below(10);
    let bytes = (0..size).map(|_| inputs.word() as u8).collect();
    let length = inputs.below(3);
    let leading = inputs.below(32);
    let has_window = length > 0 && inputs.flip();
    let trailing = inputs.below(32 - leading);
    let mut row = vec![
        inputs.value().into(),
        if has_window { leading } else { 255 },
        if has_window { trailing } else { 0 },
        inputs.below(2),
        if length > 0 {
            1 + inputs.below(8 * size + 4)
        } else {
            0
        },
        length,
    ];
    for _ in 0..inputs.below(3) {
        let place = inputs.below(READER_WORDS as u64) as usize;
        row[place] = match inputs.below(3) {
            0 => inputs.word(),
            1 => row[place].wrapping_add(inputs.below(3)).wrapping_sub(1),
            _ => inputs.pick(&WORDS),
        };
    }
    (bytes, row)
}
