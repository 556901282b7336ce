//! Going on from whatever arrived: the compiled calls, plainly and with a table, and the safe types over them, beside
//! the paper's program.

mod causes;
mod cuts;
mod damaged;
mod others;
mod safe;
mod upload;

use crate::context::Context;
use crate::face::{bound_words, opening_words};
use crate::lent::{STALE_COUNT, STALE_WORD};
use crate::parts::library_stream::both::{self as plain, Arrived};
use crate::parts::library_table::both::{self as beside, Writer};
use crate::parts::library_table::room;
use modelardb_rattle::Fault;
use modelardb_rattle::ffi::STATE_WORDS;
use oracle::paper::MOST_VALUES;
use oracle::paper::rescue::Rescue;

pub fn rescue(context: &mut Context) {
    cuts::cuts(context);
    damaged::damaged(context);
    others::others(context);
    causes::causes(context);
}

/// What is handed to a rescue, as it crosses the C face.
fn arrived(rescue: &Rescue) -> Arrived {
    Arrived {
        used: rescue.used,
        limit: rescue.limit,
        opening: opening_words(rescue.opening),
        bound: bound_words(rescue.error_bound),
    }
}

/// Rescued without a table and with one, and by the safe types: the answer, the row and the buffer are the same. The
/// answer, and what is left of row, buffer and table.
fn every_way(context: &mut Context, buffer: &[u8], rescue: &Rescue) -> (Fault, Writer) {
    let row = vec![STALE_WORD; STATE_WORDS + 1];
    let without = plain::rescued(context, buffer, arrived(rescue), &row);
    let mut table = room(rescue.limit.min(MOST_VALUES), 3);
    table.entries = STALE_COUNT;
    let before = Writer {
        row,
        buffer: buffer.to_vec(),
        table,
    };
    let (fault, left) = beside::rescued(context, &before, arrived(rescue));
    let with = (fault, left.row.clone(), left.buffer.clone());
    context.same("with a table", without, with, || {
        format!("rescued {rescue:X?} of {buffer:02X?}")
    });
    safe::rescued(context, buffer, rescue, (fault, &left));
    (fault, left)
}
