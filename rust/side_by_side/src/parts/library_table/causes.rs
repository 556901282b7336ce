//! Every cause of refusal with every other. Each choice below carries the number of the cause that it brings in, or
//! 0; the call must answer the first of them in the paper's order.

use super::Tabled;
use super::both::{self, Table, Writer};
use crate::context::Context;
use crate::inputs::ONE;
use crate::lent::{STALE, STALE_VALUE, STALE_WORD};
use crate::order::{BOUNDS, FEW_BOUNDS, in_order, lengths, of_row, rooms};
use crate::parts::library_stream::both::At;
use modelardb_rattle::ffi::{ENTRY_WORDS, STATE_WORDS};
use oracle::paper::MOST_VALUES;
use oracle::paper::macaque_v::Opening;
use oracle::paper::models::ErrorBound::Lossless;
use oracle::paper::refusal::{COUNTS, ENDS_EARLY, LEFTOVER, LIMIT, OUTPUT, STATE, TABLE};

/// A mode, and the cause that it brings in.
const MODES: [(u32, u32); 3] = [(1, 0), (2, LIMIT), (u32::MAX, LIMIT)];

/// How many repeats of 1.0 there are: two bits each, and six of padding; and how many entries they ask for.
const COUNT: usize = 65;
const ENTRIES: usize = 2;

pub fn causes(context: &mut Context) {
    let repeats = [ONE; COUNT];
    let tabled = Tabled::new(context, Lossless, Opening::On(ONE), &repeats);
    of_writing(context, &tabled);
    for (bytes, of_stream) in streams(&tabled.stream.bytes) {
        of_reopening(context, &tabled, &bytes, of_stream);
        of_checking(context, &tabled, &bytes, of_stream);
        of_ranges(context, &tabled, &bytes, of_stream);
    }
}

/// Sound, without its last byte, and with one more.
fn streams(bytes: &[u8]) -> [(Vec<u8>, u32); 3] {
    [
        (bytes.to_vec(), 0),
        (bytes[..bytes.len() - 1].to_vec(), ENDS_EARLY),
        ([bytes, &[0]].concat(), LEFTOVER),
    ]
}

/// Tables by their words and the entries in use, and the cause where two entries are asked for.
fn tables(words: &[u64]) -> Vec<(Table, u32)> {
    let mut tables = vec![];
    for (length, entries, cause) in [
        (8, ENTRIES, 0),
        (11, ENTRIES, 0),
        (12, ENTRIES, 0),
        (7, ENTRIES, COUNTS),
        (0, 1, COUNTS),
        (8, 3, COUNTS),
        (11, usize::MAX, COUNTS),
        (12, 3, TABLE),
        (8, 1, TABLE),
        (4, 1, TABLE),
        (0, 0, TABLE),
    ] {
        let mut words = words.to_vec();
        words.resize(length, STALE_WORD);
        tables.push((Table::new(&words, entries), cause));
    }
    tables
}

/// A bound, a row, a number of values, a table and two rooms.
fn of_writing(context: &mut Context, tabled: &Tabled) {
    let written: u64 = tabled.stream.row[8];
    for ((kind, bits), of_bound) in BOUNDS {
        for (place, of_place) in [(written, 0), (0, STATE), (1 << 20, STATE)] {
            for length in lengths(STATE_WORDS) {
                let mut row = tabled.stream.row.clone();
                (row[0], row[1], row[8]) = (kind.into(), bits.into(), place);
                row.resize(length, STALE_WORD);
                let causes = of_row(length, STATE_WORDS, &[of_bound, of_place]);
                with_tables(context, tabled, &row, &causes);
            }
        }
    }
}

/// None, one value behind the 65, as many as reach the third entry, and more than a stream may have; as repeats
/// they take two bits each.
fn with_tables(context: &mut Context, tabled: &Tabled, row: &[u64], causes: &[u32]) {
    for (more, all, over) in [(0, 2, 0), (1, 2, 0), (64, 3, 0), (MOST_VALUES, 2, LIMIT)] {
        let values = vec![ONE; more];
        for (table, of_table) in tables(&tabled.table.words) {
            let words = table.words.len() / ENTRY_WORDS;
            let no_entries = if words < all { OUTPUT } else { 0 };
            let bytes = (2 * (COUNT + more)).div_ceil(8).min(64);
            for (size, no_bits) in [(bytes, 0), (17, if more > 3 { OUTPUT } else { 0 })] {
                let before = Writer {
                    row: row.to_vec(),
                    buffer: vec![STALE; size],
                    table: table.clone(),
                };
                let (fault, _) = both::written(context, &before, &values);
                let short = [over, of_table, no_entries, no_bits];
                in_order(context, &[causes, &short].concat(), fault, || {
                    format!("table written {more}: {before:X?}")
                });
            }
        }
    }
}

/// A bound, a mode, a count, a k, a used length, a table and a row, over a stream.
fn of_reopening(context: &mut Context, tabled: &Tabled, bytes: &[u8], of_stream: u32) {
    let buffer = [bytes, &[STALE; 2]].concat();
    for (bound, of_bound) in FEW_BOUNDS {
        for (mode, of_mode) in MODES {
            for (count, over) in [(COUNT, 0), (MOST_VALUES + 1, LIMIT), (usize::MAX, LIMIT)] {
                for (k, above) in [(0, 0), (64, 0), (COUNT, 0), (usize::MAX, COUNTS)] {
                    for (used, more) in [(bytes.len(), 0), (buffer.len() + 1, COUNTS)] {
                        let at = At {
                            used,
                            count,
                            k,
                            opening: (mode, ONE),
                            bound,
                        };
                        let causes = [of_bound, of_mode, over, above, more, of_stream];
                        with_rows(context, tabled, &buffer, at, &causes);
                    }
                }
            }
        }
    }
}

fn with_rows(context: &mut Context, tabled: &Tabled, buffer: &[u8], at: At, causes: &[u32]) {
    for (table, of_table) in tables(&tabled.table.words) {
        for (length, short) in rooms(STATE_WORDS) {
            let before = Writer {
                row: vec![STALE_WORD; length],
                buffer: buffer.to_vec(),
                table: table.clone(),
            };
            let (fault, _) = both::reopened(context, &before, at);
            in_order(
                context,
                &[causes, &[of_table, short]].concat(),
                fault,
                || format!("table reopened {at:X?}: {before:X?}"),
            );
        }
    }
}

/// A mode, a count, a table and a stream. What the entries hold comes last.
fn of_checking(context: &mut Context, tabled: &Tabled, bytes: &[u8], of_stream: u32) {
    for (mode, of_mode) in MODES {
        for (count, over) in [(COUNT, 0), (MOST_VALUES + 1, LIMIT), (usize::MAX, LIMIT)] {
            for (table, of_table) in tables(&tabled.table.words) {
                for is_other in [false, true] {
                    let mut table = table.clone();
                    if is_other {
                        table.words.iter_mut().for_each(|word| *word ^= 1);
                    }
                    let stream = (bytes, count, (mode, ONE));
                    let fault = both::checked(context, stream, &table);
                    let mut causes = vec![of_mode, over, of_table, of_stream];
                    if is_other && causes == [0; 4] {
                        causes.push(TABLE);
                    }
                    in_order(context, &causes, fault, || {
                        format!("table checked {stream:X?} {table:X?}")
                    });
                }
            }
        }
    }
}

/// Entries that value 64 is read from, and the cause that each brings in. At the end of the stream's bits one may
/// begin, and the stream ends early there.
fn entries(bits: u64) -> [([u64; 4], u32); 11] {
    let one = u64::from(ONE);
    [
        ([128, one, 255, 0], 0),
        ([128, one, 31, 0], 0),
        ([128, one, 0, 31], 0),
        ([bits, one, 255, 0], ENDS_EARLY),
        ([bits + 1, one, 255, 0], TABLE),
        ([u64::MAX, one, 255, 0], TABLE),
        ([128, 1 << 32, 255, 0], TABLE),
        ([128, one, 255, 1], TABLE),
        ([128, one, 16, 16], TABLE),
        ([128, one, 1 << 40, 0], TABLE),
        ([128, one, u64::MAX, 33], TABLE),
    ]
}

/// A mode, a count, a range, an entry, how many are in use and lent, a room, and a stream.
fn of_ranges(context: &mut Context, tabled: &Tabled, bytes: &[u8], of_stream: u32) {
    let first = &tabled.table.words[..ENTRY_WORDS];
    for (entry, of_entry) in entries(8 * bytes.len() as u64) {
        let words = [first, &entry].concat();
        for (in_use, lent, of_use) in [
            (2, 8, 0),
            (9, 39, 0),
            (9, 35, COUNTS),
            (2, 7, COUNTS),
            (usize::MAX, 8, COUNTS),
            (1, 8, TABLE),
            (0, 0, TABLE),
        ] {
            let mut words = words.clone();
            words.resize(lent, STALE_WORD);
            let table = Table::new(&words, in_use);
            of_asking(context, bytes, &table, [of_entry, of_use, of_stream]);
        }
    }
}

fn of_asking(context: &mut Context, bytes: &[u8], table: &Table, of_table: [u32; 3]) {
    let [of_entry, of_use, of_stream] = of_table;
    // 8 is not judged.
    let of_reading = if of_stream == LEFTOVER { 0 } else { of_stream };
    for (mode, of_mode) in MODES {
        for (count, over) in [(COUNT, 0), (MOST_VALUES + 1, LIMIT), (usize::MAX, LIMIT)] {
            for (p, q, of_pair) in [
                (64, 65, 0),
                (64, 64, 0),
                (65, 64, COUNTS),
                (64, usize::MAX, COUNTS),
                (usize::MAX, 64, COUNTS),
            ] {
                for (room, short) in [(0, OUTPUT), (1, 0), (3, 0)] {
                    let stream = (bytes, count, (mode, ONE));
                    let out = vec![STALE_VALUE; room];
                    let (fault, _) = both::ranged(context, stream, table, p..q, &out);
                    let mut causes = vec![of_mode, over, of_pair];
                    if p != q {
                        causes.extend([of_use, of_entry, short, of_reading]);
                    }
                    in_order(context, &causes, fault, || {
                        format!("table range {p} to {q} of {stream:X?} {table:X?} into {room}")
                    });
                }
            }
        }
    }
}
