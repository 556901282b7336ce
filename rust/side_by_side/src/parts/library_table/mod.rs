//! The place table as compiled from the proved crates, called through its C face, beside the paper's program.

pub mod both;
mod causes;
mod damaged;
mod others;
mod ranges;
pub mod resumed;
mod safe;
mod words;
mod written;

pub use causes::causes;
pub use damaged::damaged;
pub use others::others;
pub use ranges::ranges;
pub use resumed::resumed;
pub use words::words;
pub use written::written;

use crate::context::Context;
use crate::lent::{STALE, STALE_VALUE, STALE_WORD};
use crate::parts::library_stream::{self, Stream, room_for};
use both::{Stored, Table, Writer};
use modelardb_rattle::Fault;
use modelardb_rattle::ffi::ENTRY_WORDS;
use oracle::paper::macaque_v::Opening;
use oracle::paper::models::ErrorBound;
use oracle::paper::place_table::{entries_for, table_of};

/// A stream, and the table that was written beside it in one go.
pub struct Tabled {
    pub stream: Stream,
    pub table: Table,
}

impl Tabled {
    /// Written with a table and without: state and bytes are the same, and the table is that of its inputs.
    pub fn new(context: &mut Context, bound: ErrorBound, opening: Opening, values: &[u32]) -> Self {
        let stream = Stream::new(context, bound, opening, values);
        let before = Writer {
            row: stream.fresh.clone(),
            buffer: vec![STALE; room_for(values.len()) + 3],
            table: room(values.len(), 3),
        };
        let (fault, mut left) = both::written(context, &before, values);
        let Table { words, entries } = &mut left.table;
        let own = table_of(bound, opening, values).map(|own| own.concat());
        let input = || format!("table of {bound:X?} {opening:X?} {values:08X?}");
        if fault == Fault::ACCEPTED {
            words.truncate(ENTRY_WORDS * *entries);
            context.same("the inputs", own.as_ref(), Ok(&*words), input);
        }
        left.buffer.truncate(left.row[8].div_ceil(8) as usize);
        let plain = (&stream.row, &stream.bytes);
        context.same("without a table", plain, (&left.row, &left.buffer), input);
        Self {
            stream,
            table: left.table,
        }
    }

    /// Of so many values, of any bound and opening.
    pub fn any(context: &mut Context, count: usize) -> Self {
        let values = context.inputs.values(count);
        let (bound, opening) = (context.inputs.bound(), context.inputs.opening());
        Self::new(context, bound, opening, &values)
    }

    pub fn count(&self) -> usize {
        self.stream.count()
    }

    pub fn stored(&self) -> Stored<'_> {
        (&self.stream.bytes, self.count(), self.stream.opening)
    }

    /// The writer behind all values, lent a table, with room for some more values in the buffer.
    pub fn writer(&self, table: Table) -> Writer {
        Writer {
            row: self.stream.row.clone(),
            buffer: [&self.stream.bytes[..], &[STALE; 24]].concat(),
            table,
        }
    }

    /// All values, as the whole reading draws them.
    pub fn values(&self, context: &mut Context) -> Vec<u32> {
        whole(context, self.stored()).1
    }
}

/// The whole reading of what may be a stream.
pub fn whole(context: &mut Context, stream: Stored) -> (Fault, Vec<u32>) {
    let out = vec![STALE_VALUE; stream.1];
    library_stream::both::read(context, library_stream::both::GRID, stream, &out)
}

/// A table of no entries, with room for those of so many values and some words more.
pub fn room(count: usize, more: usize) -> Table {
    Table::new(
        &vec![STALE_WORD; ENTRY_WORDS * entries_for(count) + more],
        0,
    )
}
