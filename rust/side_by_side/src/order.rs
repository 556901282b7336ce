//! The order of the causes of refusal, and choices that bring causes in.

use crate::context::Context;
use modelardb_rattle::Fault;
use modelardb_rattle::ffi::Words;
use oracle::paper::refusal::{
    BOUND, COUNTS, ENDS_EARLY, FORM, LEFTOVER, LIMIT, NO_MODEL, NO_WINDOW, OUTPUT, STATE, TABLE,
    TIMES, WINDOW,
};

/// "Where several of 1, 2, 3, 12, 4, 10, 9, 11 apply, the first in that order is given. Refusals 5 to 8
/// come after those": of these a stream has one, at its first place. "13, table doesn't match ... after 12".
const ORDER: [u32; 13] = [
    BOUND, STATE, LIMIT, COUNTS, TABLE, OUTPUT, TIMES, FORM, NO_MODEL, ENDS_EARLY, NO_WINDOW,
    WINDOW, LEFTOVER,
];

/// The answer's number must be that of the first of the causes.
pub fn in_order(
    context: &mut Context,
    causes: &[u32],
    fault: Fault,
    input: impl FnOnce() -> String,
) {
    let first = ORDER.into_iter().find(|cause| causes.contains(cause));
    context.same("the order", first.unwrap_or(0), fault.number, input);
}

/// Bounds as they cross the C face, and the cause that each brings in, or 0.
pub const BOUNDS: [(Words, u32); 10] = [
    ((0, 0), 0),
    ((0, 0x7FC0_0000), 0), // Lossless does not look at it
    ((1, 0x3F80_0000), 0), // 1
    ((1, 0), BOUND),
    ((1, 0x7F80_0000), BOUND), // infinity
    ((2, 0x42C8_0000), 0),     // 100
    ((2, 0x42C8_0001), BOUND), // just over 100
    ((2, 0x7FC0_0000), BOUND),
    ((3, 0x3F80_0000), BOUND),
    ((u32::MAX, 0), BOUND),
];

/// Two of them that are allowed, and two that are not.
pub const FEW_BOUNDS: [(Words, u32); 4] = [BOUNDS[0], BOUNDS[2], BOUNDS[3], BOUNDS[8]];

/// A row that a state is read from: of no words, of a part of its bound, of its bound alone, of one word less
/// than needed, of just enough and of more.
pub fn lengths(words: usize) -> [usize; 6] {
    [0, 1, 2, words - 1, words, words + 2]
}

/// What a row of this length brings in, where the whole row would bring in these causes, the first of them of
/// its bound: one that is too short stands for no state, and its bound is judged where it is there.
pub fn of_row(length: usize, words: usize, causes: &[u32]) -> Vec<u32> {
    match length {
        _ if length >= words => causes.to_vec(),
        0 | 1 => vec![STATE],
        _ => vec![causes[0], STATE],
    }
}

/// A memory of no words, of one less than needed, of just enough and of more.
pub fn rooms(words: usize) -> [(usize, u32); 4] {
    [(0, OUTPUT), (words - 1, OUTPUT), (words, 0), (words + 2, 0)]
}
