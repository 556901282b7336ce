//! Each call of the compiled face and the paper's on the same lent memory: what is answered and all that is lent
//! afterwards are compared, and the library's memory stands between guards.

use crate::context::Context;
use crate::face;
use crate::lent::{BYTE_GUARD, COUNT_GUARD, Lent, VALUE_GUARD, WORD_GUARD};
use crate::parts::library_stream::both::{Arrived, At};
use modelardb_rattle::Fault;
use modelardb_rattle::ffi::{self, Words};
use std::ops::Range;

/// A table as it is lent: its words, and how many entries are in use.
#[derive(Clone, Debug, PartialEq)]
pub struct Table {
    pub words: Vec<u64>,
    pub entries: usize,
}

impl Table {
    pub fn new(words: &[u64], entries: usize) -> Self {
        Self {
            words: words.to_vec(),
            entries,
        }
    }

    fn lent(&self) -> (&[u64], usize) {
        (&self.words, self.entries)
    }
}

/// A writer's row, its buffer and its table: what is lent to a call, and what it leaves.
#[derive(Clone, Debug, PartialEq)]
pub struct Writer {
    pub row: Vec<u64>,
    pub buffer: Vec<u8>,
    pub table: Table,
}

/// A [`Writer`] as the library is lent it.
struct LentWriter {
    row: Lent<u64>,
    buffer: Lent<u8>,
    words: Lent<u64>,
    entries: Lent<usize>,
}

impl LentWriter {
    fn new(writer: &Writer) -> Self {
        Self {
            row: Lent::new(&writer.row, WORD_GUARD),
            buffer: Lent::new(&writer.buffer, BYTE_GUARD),
            words: Lent::new(&writer.table.words, WORD_GUARD),
            entries: Lent::new(&[writer.table.entries], COUNT_GUARD),
        }
    }

    /// What it holds, or `None` where a guard was overwritten.
    fn content(self) -> Option<Writer> {
        Some(Writer {
            row: self.row.content()?,
            buffer: self.buffer.content()?,
            table: Table {
                words: self.words.content()?,
                entries: self.entries.content()?[0],
            },
        })
    }
}

/// What was answered and left must be the same, and a refusal leaves everything as it was.
fn compared(
    context: &mut Context,
    before: &Writer,
    paper: (Fault, Writer),
    library: (Fault, Option<Writer>),
    input: impl FnOnce() -> String,
) -> (Fault, Writer) {
    let (fault, left) = paper;
    let is_as_refused = library.0 == Fault::ACCEPTED || library.1.as_ref() == Some(before);
    let expected = (fault, Some(&left), true);
    let found = (library.0, library.1.as_ref(), is_as_refused);
    context.same("library", expected, found, || {
        format!("{} with {before:X?}", input())
    });
    (fault, left)
}

pub fn written(context: &mut Context, before: &Writer, values: &[u32]) -> (Fault, Writer) {
    let mut left = before.clone();
    let Writer { row, buffer, table } = &mut left;
    let Table { words, entries } = table;
    let fault = face::table::compress_values(row, values, buffer, words, entries);
    let mut lent = LentWriter::new(before);
    let mut lent_values = Lent::new(values, VALUE_GUARD);
    let ours = ffi::table_compress_values(
        lent.row.lend(),
        lent_values.lend(),
        lent.buffer.lend(),
        lent.words.lend(),
        &mut lent.entries.lend()[0],
    );
    let input = || format!("table written {values:08X?}");
    let is_kept = lent_values.content().as_deref() == Some(values);
    context.same("values lent", true, is_kept, input);
    let (paper, library) = ((fault, left), (ours, lent.content()));
    compared(context, before, paper, library, input)
}

/// The row of `before` is where the state goes.
pub fn reopened(context: &mut Context, before: &Writer, at: At) -> (Fault, Writer) {
    let At {
        used,
        count,
        k,
        opening,
        bound,
    } = at;
    into_a_row(
        context,
        before,
        |buffer, row, (words, entries)| {
            let to = (&*words, entries);
            face::table::reopen(buffer, used, (count, k), opening, bound, row, to)
        },
        |buffer, row, (words, entries)| {
            let to = (&*words, entries);
            ffi::table_reopen(buffer, used, (count, k), opening, bound, row, to)
        },
        || format!("table reopened {at:X?}"),
    )
}

/// The row of `before` is where the state goes, and its table where the entries go.
pub fn rescued(context: &mut Context, before: &Writer, arrived: Arrived) -> (Fault, Writer) {
    let Arrived {
        used,
        limit,
        opening,
        bound,
    } = arrived;
    into_a_row(
        context,
        before,
        |buffer, row, to| face::table::rescue(buffer, used, limit, opening, bound, row, to),
        |buffer, row, to| ffi::table_rescue(buffer, used, limit, opening, bound, row, to),
        || format!("table rescued {arrived:X?}"),
    )
}

/// The words of a table, and how many entries are in use.
type Lends<'a> = (&'a mut [u64], &'a mut usize);

/// A call that puts a writer into a row, by the paper and by the library.
fn into_a_row(
    context: &mut Context,
    before: &Writer,
    paper: impl FnOnce(&mut [u8], &mut [u64], Lends) -> Fault,
    library: impl FnOnce(&mut [u8], &mut [u64], Lends) -> Fault,
    input: impl FnOnce() -> String,
) -> (Fault, Writer) {
    let mut left = before.clone();
    let Writer { row, buffer, table } = &mut left;
    let fault = paper(buffer, row, (&mut table.words, &mut table.entries));
    let mut lent = LentWriter::new(before);
    let to = (lent.words.lend(), &mut lent.entries.lend()[0]);
    let ours = library(lent.buffer.lend(), lent.row.lend(), to);
    compared(
        context,
        before,
        (fault, left),
        (ours, lent.content()),
        input,
    )
}

/// A stream's bytes, its count and how it opens.
pub type Stored<'a> = (&'a [u8], usize, Words);

pub fn checked(context: &mut Context, stream: Stored, table: &Table) -> Fault {
    let (bytes, count, opening) = stream;
    let fault = face::table::check(bytes, count, opening, table.lent());
    let mut lent_bytes = Lent::new(bytes, BYTE_GUARD);
    let mut lent_words = Lent::new(&table.words, WORD_GUARD);
    let to = (&*lent_words.lend(), table.entries);
    let ours = ffi::table_check(lent_bytes.lend(), count, opening, to);
    let kept = is_kept(lent_bytes, bytes) && is_kept(lent_words, &table.words);
    context.same("library", (fault, true), (ours, kept), || {
        format!("table checked {stream:X?} {table:X?}")
    });
    fault
}

/// What is answered, and what the output holds afterwards.
pub fn ranged(
    context: &mut Context,
    stream: Stored,
    table: &Table,
    values: Range<usize>,
    out: &[u32],
) -> (Fault, Vec<u32>) {
    let (bytes, count, opening) = stream;
    let mut left = out.to_vec();
    let lent = table.lent();
    let fault = face::table::range(bytes, count, opening, lent, values.clone(), &mut left);
    let mut lent_bytes = Lent::new(bytes, BYTE_GUARD);
    let mut lent_words = Lent::new(&table.words, WORD_GUARD);
    let mut lent_out = Lent::new(out, VALUE_GUARD);
    let to = (&*lent_words.lend(), table.entries);
    let bytes_lent = lent_bytes.lend();
    let ours = ffi::table_range(
        bytes_lent,
        count,
        opening,
        to,
        values.clone(),
        lent_out.lend(),
    );
    let kept = is_kept(lent_bytes, bytes) && is_kept(lent_words, &table.words);
    let expected = (fault, Some(left.clone()), true);
    context.same(
        "library",
        expected,
        (ours, lent_out.content(), kept),
        || format!("table range {values:?} of {stream:X?} {table:X?} into {out:X?}"),
    );
    (fault, left)
}

/// Whether what was lent to be read is as it was.
fn is_kept<T: Copy + PartialEq>(lent: Lent<T>, content: &[T]) -> bool {
    lent.content().as_deref() == Some(content)
}
