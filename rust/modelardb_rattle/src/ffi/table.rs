//! The calls of the place table. It crosses as words, four to an entry, and how many entries are in use
//! stands beside it.

use super::Words;
use crate::Fault;
use std::ops::Range;

mod c {
    use crate::Fault;

    unsafe extern "C" {
        pub unsafe fn modelardb_table_compress_values(
            state: *mut u64,
            state_len: usize,
            values: *const u32,
            values_len: usize,
            buffer: *mut u8,
            buffer_len: usize,
            table: *mut u64,
            table_len: usize,
            entries: *mut usize,
        ) -> Fault;
        pub unsafe fn modelardb_table_reopen(
            buffer: *mut u8,
            buffer_len: usize,
            used: usize,
            count: usize,
            k: usize,
            mode: u32,
            opening: u32,
            kind: u32,
            bound: u32,
            state: *mut u64,
            state_len: usize,
            table: *const u64,
            table_len: usize,
            entries: *mut usize,
        ) -> Fault;
        pub unsafe fn modelardb_table_rescue(
            buffer: *mut u8,
            buffer_len: usize,
            used: usize,
            limit: usize,
            mode: u32,
            opening: u32,
            kind: u32,
            bound: u32,
            state: *mut u64,
            state_len: usize,
            table: *mut u64,
            table_len: usize,
            entries: *mut usize,
        ) -> Fault;
        pub unsafe fn modelardb_table_check(
            bytes: *const u8,
            bytes_len: usize,
            count: usize,
            mode: u32,
            opening: u32,
            table: *const u64,
            table_len: usize,
            entries: usize,
        ) -> Fault;
        pub unsafe fn modelardb_table_range(
            bytes: *const u8,
            bytes_len: usize,
            count: usize,
            mode: u32,
            opening: u32,
            table: *const u64,
            table_len: usize,
            entries: usize,
            p: usize,
            q: usize,
            out: *mut u32,
            out_len: usize,
        ) -> Fault;
    }
}

/// How many words an entry has: the place in bits, the last value kept, and the window's leading and trailing
/// zeros, each as it is before the entry's value.
pub const ENTRY_WORDS: usize = 4;

/// How many values an entry stands for: there is one before value 0, 64, 128 and so on.
pub const VALUES_PER_ENTRY: usize = 64;

/// The values are written behind the state's place, and `state` becomes the one after them; `table` takes in
/// the entries of those before which one stands, behind the `entries` in use, which then counts them too.
pub fn table_compress_values(
    state: &mut [u64],
    values: &[u32],
    buffer: &mut [u8],
    table: &mut [u64],
    entries: &mut usize,
) -> Fault {
    let words = (table.as_mut_ptr(), table.len());
    // SAFETY: start and length are those of a slice lent for the call, which overlaps no other.
    unsafe { compress_values(state, values, buffer, words, entries) }
}

/// The same with a list of just the entries in use, before and after, which is given room for `room` words first. Words
/// behind the last whole entry are no part of one, and are dropped.
pub fn table_compress_into(
    state: &mut [u64],
    values: &[u32],
    buffer: &mut [u8],
    table: &mut Vec<u64>,
    room: usize,
) -> Fault {
    let mut entries = table.len() / ENTRY_WORDS;
    table.reserve(room.saturating_sub(table.len()));
    let words = (table.as_mut_ptr(), table.capacity().min(room));
    // SAFETY: the list has that much room, and overlaps no other. The call looks at no word behind the entries in
    // use, and sets those of each entry that it adds: after it so many are in use, and set.
    unsafe {
        let fault = compress_values(state, values, buffer, words, &mut entries);
        table.set_len(ENTRY_WORDS * entries);
        fault
    }
}

/// The call behind both.
///
/// # Safety
///
/// So many words from that start on are the caller's for the call, and overlap nothing else that is lent.
unsafe fn compress_values(
    state: &mut [u64],
    values: &[u32],
    buffer: &mut [u8],
    (words, words_length): (*mut u64, usize),
    entries: &mut usize,
) -> Fault {
    let (row, row_length) = (state.as_mut_ptr(), state.len());
    let (start, length) = (buffer.as_mut_ptr(), buffer.len());
    // SAFETY: each other start and length are those of a slice lent for the call, and no two overlap.
    unsafe {
        c::modelardb_table_compress_values(
            row,
            row_length,
            values.as_ptr(),
            values.len(),
            start,
            length,
            words,
            words_length,
            entries,
        )
    }
}

/// `state` becomes that of the writer behind the first `k` of the `count` values in the first `used` bytes, what
/// follows them in their last byte becomes zeros, and `entries`, how many are in use, how many are after it. No word of
/// the table is read or changed.
pub fn table_reopen(
    buffer: &mut [u8],
    used: usize,
    (count, k): (usize, usize),
    (mode, opening): Words,
    (kind, bound): Words,
    state: &mut [u64],
    (table, entries): (&[u64], &mut usize),
) -> Fault {
    let (row, row_length) = (state.as_mut_ptr(), state.len());
    let (start, length) = (buffer.as_mut_ptr(), buffer.len());
    let (words, words_length) = (table.as_ptr(), table.len());
    // SAFETY: each start and length are those of a slice lent for the call, and no two overlap.
    unsafe {
        c::modelardb_table_reopen(
            start,
            length,
            used,
            count,
            k,
            mode,
            opening,
            kind,
            bound,
            row,
            row_length,
            words,
            words_length,
            entries,
        )
    }
}

/// `state` becomes that of the writer behind the whole values in the first `used` bytes, `limit` of them at most, what
/// follows them in their last byte becomes zeros, the front of the table their entries, and `entries` how many these
/// are. Neither of the two is looked at.
pub fn table_rescue(
    buffer: &mut [u8],
    used: usize,
    limit: usize,
    (mode, opening): Words,
    (kind, bound): Words,
    state: &mut [u64],
    (table, entries): (&mut [u64], &mut usize),
) -> Fault {
    let (row, row_length) = (state.as_mut_ptr(), state.len());
    let (start, length) = (buffer.as_mut_ptr(), buffer.len());
    let (words, words_length) = (table.as_mut_ptr(), table.len());
    // SAFETY: each start and length are those of a slice lent for the call, and no two overlap.
    unsafe {
        c::modelardb_table_rescue(
            start,
            length,
            used,
            limit,
            mode,
            opening,
            kind,
            bound,
            row,
            row_length,
            words,
            words_length,
            entries,
        )
    }
}

/// Accepted where the entries in use are those of the stream.
pub fn table_check(
    bytes: &[u8],
    count: usize,
    (mode, opening): Words,
    (table, entries): (&[u64], usize),
) -> Fault {
    let (start, length) = (bytes.as_ptr(), bytes.len());
    let (words, words_length) = (table.as_ptr(), table.len());
    // SAFETY: each start and length are those of a slice lent for the call.
    unsafe {
        c::modelardb_table_check(
            start,
            length,
            count,
            mode,
            opening,
            words,
            words_length,
            entries,
        )
    }
}

/// The first places of `out` become the values of the range, by their numbers in the stream.
pub fn table_range(
    bytes: &[u8],
    count: usize,
    (mode, opening): Words,
    (table, entries): (&[u64], usize),
    Range { start: p, end: q }: Range<usize>,
    out: &mut [u32],
) -> Fault {
    let (start, length) = (bytes.as_ptr(), bytes.len());
    let (words, words_length) = (table.as_ptr(), table.len());
    let (places, room) = (out.as_mut_ptr(), out.len());
    // SAFETY: each start and length are those of a slice lent for the call, and no two overlap.
    unsafe {
        c::modelardb_table_range(
            start,
            length,
            count,
            mode,
            opening,
            words,
            words_length,
            entries,
            p,
            q,
            places,
            room,
        )
    }
}
