//! Each call of the compiled face and the paper's on the same lent memory: what is answered, number,
//! value and place, and all that is lent afterwards are compared, and the library's memory stands between guards.

use crate::context::Context;
use crate::face;
use crate::lent::{BYTE_GUARD, COUNT_GUARD, Lent, STALE_COUNT, VALUE_GUARD, WORD_GUARD, compared};
use modelardb_rattle::Fault;
use modelardb_rattle::ffi::{self, Words};

/// What a call on a writer's row leaves: what it answers, the row and the buffer.
pub type Left = (Fault, Vec<u64>, Vec<u8>);

/// What is handed to a reopening besides its buffer.
#[derive(Clone, Copy, Debug)]
pub struct At {
    pub used: usize,
    pub count: usize,
    pub k: usize,
    pub opening: Words,
    pub bound: Words,
}

/// What is handed to a rescue besides its buffer.
#[derive(Clone, Copy, Debug)]
pub struct Arrived {
    pub used: usize,
    pub limit: usize,
    pub opening: Words,
    pub bound: Words,
}

pub fn opened(
    context: &mut Context,
    bound: Words,
    opening: Words,
    row: &[u64],
) -> (Fault, Vec<u64>) {
    let mut paper = row.to_vec();
    let fault = face::new(bound, opening, &mut paper);
    let mut lent = Lent::new(row, WORD_GUARD);
    let ours = ffi::macaque_v_new(bound, opening, lent.lend());
    let (expected, left) = ((fault, Some(paper.clone())), (ours, lent.content()));
    let input = || format!("new {bound:X?} {opening:X?} into {row:X?}");
    context.same("library", expected, left, input);
    (fault, paper)
}

pub fn written(context: &mut Context, row: &[u64], values: &[u32], buffer: &[u8]) -> Left {
    let (mut after, mut bytes) = (row.to_vec(), buffer.to_vec());
    let fault = face::compress_values(&mut after, values, &mut bytes);
    let paper = (fault, after, bytes);
    written_as(context, &paper, row, values, buffer);
    paper
}

/// The library alone: it must leave what is given.
pub fn written_as(
    context: &mut Context,
    (fault, after, bytes): &Left,
    row: &[u64],
    values: &[u32],
    buffer: &[u8],
) {
    let mut lent_row = Lent::new(row, WORD_GUARD);
    let mut lent_values = Lent::new(values, VALUE_GUARD);
    let mut lent_buffer = Lent::new(buffer, BYTE_GUARD);
    let ours =
        ffi::macaque_v_compress_values(lent_row.lend(), lent_values.lend(), lent_buffer.lend());
    let (row_left, values_left) = (lent_row.content(), lent_values.content());
    let left = (ours, row_left, lent_buffer.content());
    let expected = (*fault, Some(after.clone()), Some(bytes.clone()));
    let input = || format!("written {row:X?} {values:08X?} into {buffer:02X?}");
    context.same("library", expected, left, input);
    let is_kept = values_left.as_deref() == Some(values);
    context.same("values lent", true, is_kept, input);
}

pub fn reopened(context: &mut Context, buffer: &[u8], at: At, row: &[u64]) -> Left {
    let At {
        used,
        count,
        k,
        opening,
        bound,
    } = at;
    into_a_row(
        context,
        (buffer, row),
        |bytes, row| face::reopen(bytes, used, (count, k), opening, bound, row),
        |bytes, row| ffi::macaque_v_reopen(bytes, used, (count, k), opening, bound, row),
        || format!("reopened {at:X?}"),
    )
}

pub fn rescued(context: &mut Context, buffer: &[u8], arrived: Arrived, row: &[u64]) -> Left {
    let Arrived {
        used,
        limit,
        opening,
        bound,
    } = arrived;
    into_a_row(
        context,
        (buffer, row),
        |bytes, row| face::rescue(bytes, used, limit, opening, bound, row),
        |bytes, row| ffi::macaque_v_rescue(bytes, used, limit, opening, bound, row),
        || format!("rescued {arrived:X?}"),
    )
}

/// A call that puts a writer into a row and cuts its buffer, by the paper and by the library.
fn into_a_row(
    context: &mut Context,
    (buffer, row): (&[u8], &[u64]),
    paper: impl FnOnce(&mut [u8], &mut [u64]) -> Fault,
    library: impl FnOnce(&mut [u8], &mut [u64]) -> Fault,
    input: impl FnOnce() -> String,
) -> Left {
    let (mut after, mut bytes) = (row.to_vec(), buffer.to_vec());
    let fault = paper(&mut bytes, &mut after);
    let mut lent_row = Lent::new(row, WORD_GUARD);
    let mut lent_buffer = Lent::new(buffer, BYTE_GUARD);
    let ours = library(lent_buffer.lend(), lent_row.lend());
    let left = (ours, lent_row.content(), lent_buffer.content());
    let expected = (fault, Some(after.clone()), Some(bytes.clone()));
    context.same("library", expected, left, || {
        format!("{} of {buffer:02X?} into {row:X?}", input())
    });
    (fault, after, bytes)
}

/// The most that a count of values in a mode takes.
type Most = fn(usize, u32, &mut usize) -> Fault;

/// The paper's and the library's.
pub const MOST_BITS: [Most; 2] = [face::most_bits, |count, mode, bits| {
    ffi::macaque_v_most_bits(count, mode, bits)
}];
pub const MOST_BYTES: [Most; 2] = [face::most_bytes, |count, mode, bytes| {
    ffi::macaque_v_most_bytes(count, mode, bytes)
}];

/// What is answered, and the number afterwards.
pub fn most(
    context: &mut Context,
    [paper, library]: [Most; 2],
    count: usize,
    mode: u32,
) -> (Fault, usize) {
    let (fault, left) = compared(
        context,
        (&[STALE_COUNT], COUNT_GUARD),
        |number| paper(count, mode, &mut number[0]),
        |number| library(count, mode, &mut number[0]),
        || format!("the most of {count} values in mode {mode}"),
    );
    (fault, left[0])
}

/// Reading into an output.
type Read = fn(&[u8], usize, Words, &mut [u32]) -> Fault;

/// The paper's and the library's.
pub const GRID: [Read; 2] = [face::grid, ffi::macaque_v_grid];
pub const SUM: [Read; 2] = [face::sum, ffi::macaque_v_sum];

/// Reads into `out`; what is answered, and what is there afterwards.
pub fn read(
    context: &mut Context,
    [paper, library]: [Read; 2],
    (bytes, count, opening): (&[u8], usize, Words),
    out: &[u32],
) -> (Fault, Vec<u32>) {
    let mut after = out.to_vec();
    let fault = paper(bytes, count, opening, &mut after);
    let mut lent = Lent::new(out, VALUE_GUARD);
    let mut stream = Lent::new(bytes, BYTE_GUARD);
    let ours = library(stream.lend(), count, opening, lent.lend());
    let left = (ours, lent.content(), stream.content());
    let expected = (fault, Some(after.clone()), Some(bytes.to_vec()));
    let input = || format!("read {count} of {bytes:02X?} {opening:X?} into {out:X?}");
    context.same("library", expected, left, input);
    (fault, after)
}
