//! Every cause of refusal with every other. Each choice below carries the number of the cause that it brings in, or 0; the
//! calls must answer the first of them in the paper's order.

use crate::context::Context;
use crate::inputs::ONE;
use crate::lent::{STALE, STALE_WORD};
use crate::order::{BOUNDS, in_order, rooms};
use crate::parts::library_stream::both::{self as plain, Arrived};
use crate::parts::library_table::both::{Table, Writer, rescued};
use modelardb_rattle::ffi::{ENTRY_WORDS, STATE_WORDS};
use oracle::paper::MOST_VALUES;
use oracle::paper::refusal::{COUNTS, LIMIT, NO_WINDOW, OUTPUT, WINDOW};

/// A mode, and the cause that it brings in.
const MODES: [(u32, u32); 3] = [(1, 0), (2, LIMIT), (u32::MAX, LIMIT)];

/// Limits above two values, the entries that they ask for, and the cause that each brings in. Above the limit of all it
/// does not come to the entries.
const LIMITS: [(usize, usize, u32); 6] = [
    (3, 1, 0),
    (65, 2, 0),
    (MOST_VALUES, MOST_VALUES / 64, 0),
    (MOST_VALUES + 1, 0, LIMIT),
    (1 << 32, 0, LIMIT),
    (usize::MAX, 0, LIMIT),
];

/// On 1.0 two repeats and a cut header; then a keep code without a window; then a window of no bits.
const STREAMS: [(&[u8], u32); 3] = [
    (&[0xAC], 0),
    (&[0xA0], NO_WINDOW),
    (&[0xAC, 0x00, 0x00], WINDOW),
];

pub fn causes(context: &mut Context) {
    for (bytes, of_stream) in STREAMS {
        for (bound, of_bound) in BOUNDS {
            for (mode, of_mode) in MODES {
                for (limit, entries, over) in LIMITS {
                    for (used, more) in used(bytes) {
                        let arrived = Arrived {
                            used,
                            limit,
                            opening: (mode, ONE),
                            bound,
                        };
                        let causes = [of_bound, of_mode, over, more, of_stream];
                        with_rows(context, bytes, arrived, entries, &causes);
                    }
                }
            }
        }
    }
}

/// Lengths in use, where two more bytes are lent.
fn used(bytes: &[u8]) -> [(usize, u32); 3] {
    let lent = bytes.len() + 2;
    [(bytes.len(), 0), (lent + 1, COUNTS), (usize::MAX, COUNTS)]
}

fn with_rows(
    context: &mut Context,
    bytes: &[u8],
    arrived: Arrived,
    entries: usize,
    causes: &[u32],
) {
    let buffer = [bytes, &[STALE; 2]].concat();
    for (length, short) in rooms(STATE_WORDS) {
        let row = vec![STALE_WORD; length];
        let (fault, ..) = plain::rescued(context, &buffer, arrived, &row);
        let with_row = [causes, &[short]].concat();
        let input = || format!("rescued {arrived:X?} of {buffer:02X?} into {length} words");
        in_order(context, &with_row, fault, input);
        for (words, few) in tables(entries) {
            let before = Writer {
                row: row.clone(),
                buffer: buffer.clone(),
                table: Table::new(&vec![STALE_WORD; words], usize::MAX),
            };
            let (fault, _) = rescued(context, &before, arrived);
            let all = [&with_row[..], &[few]].concat();
            in_order(context, &all, fault, || {
                format!("{} and {words} of a table", input())
            });
        }
    }
}

/// Tables of just as many entries as are asked for, of some words more, of one word less, and of none.
fn tables(entries: usize) -> Vec<(usize, u32)> {
    let words = ENTRY_WORDS * entries;
    let mut tables = vec![(words, 0), (words + 3, 0)];
    if words > 0 {
        tables.extend([(words - 1, OUTPUT), (0, OUTPUT)]);
    }
    tables
}
