//! The calls of the reader. Where it stands crosses as a row; the stream's bytes are lent to each call.

use super::Words;
use crate::Fault;

mod c {
    use crate::Fault;

    unsafe extern "C" {
        pub unsafe fn modelardb_reader_open(
            mode: u32,
            opening: u32,
            reader: *mut u64,
            reader_len: usize,
        ) -> Fault;
        pub unsafe fn modelardb_reader_next(
            bytes: *const u8,
            bytes_len: usize,
            reader: *mut u64,
            reader_len: usize,
            out: *mut u32,
            out_len: usize,
        ) -> Fault;
        pub unsafe fn modelardb_reader_end(
            bytes: *const u8,
            bytes_len: usize,
            reader: *const u64,
            reader_len: usize,
        ) -> Fault;
        pub unsafe fn modelardb_reader_last_value(
            bytes: *const u8,
            bytes_len: usize,
            count: usize,
            mode: u32,
            opening: u32,
            out: *mut u32,
            out_len: usize,
        ) -> Fault;
    }
}

/// How many words a reader has: the last value read; the window's leading and trailing zeros; 1 where
/// the first value is stored in full; the place in bits; how many values are read.
pub const READER_WORDS: usize = 6;

/// The first six words of `reader` become those before any value.
pub fn reader_open((mode, opening): Words, reader: &mut [u64]) -> Fault {
    // SAFETY: start and length are those of a slice lent for the call.
    unsafe { c::modelardb_reader_open(mode, opening, reader.as_mut_ptr(), reader.len()) }
}

/// `out[0]` becomes the next value, and `reader` stands behind it.
pub fn reader_next(bytes: &[u8], reader: &mut [u64], out: &mut [u32]) -> Fault {
    let (row, words) = (reader.as_mut_ptr(), reader.len());
    let (places, room) = (out.as_mut_ptr(), out.len());
    // SAFETY: each start and length are those of a slice lent for the call, and no two overlap.
    unsafe { c::modelardb_reader_next(bytes.as_ptr(), bytes.len(), row, words, places, room) }
}

/// Accepted where the stream ends behind the values read.
pub fn reader_end(bytes: &[u8], reader: &[u64]) -> Fault {
    let (row, words) = (reader.as_ptr(), reader.len());
    // SAFETY: each start and length are those of a slice lent for the call.
    unsafe { c::modelardb_reader_end(bytes.as_ptr(), bytes.len(), row, words) }
}

/// `out[0]` becomes the last of the stream's values, +0 where there are none.
pub fn reader_last_value(
    bytes: &[u8],
    count: usize,
    (mode, opening): Words,
    out: &mut [u32],
) -> Fault {
    let (places, room) = (out.as_mut_ptr(), out.len());
    let (start, length) = (bytes.as_ptr(), bytes.len());
    // SAFETY: each start and length are those of a slice lent for the call, and they do not overlap.
    unsafe { c::modelardb_reader_last_value(start, length, count, mode, opening, places, room) }
}
