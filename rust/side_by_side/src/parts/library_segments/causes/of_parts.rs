//! Parts of a segment, and the causes that they bring in.

use crate::inputs::{INFINITY, NAN, ONE, TWO};
use modelardb_rattle::ffi::Pair;
use oracle::paper::refusal::{FORM, LIMIT, NO_MODEL};

/// Parameter bytes and a segment's extremes, with the causes that they bring to PMC-Mean and to Swing. The
/// bytes of a line that is not drawn, 11, are read all the same.
pub const FORMS: [(&[u8], Pair, [u32; 2]); 11] = [
    (&[], (ONE, TWO), [0, 0]),
    (&[7], (ONE, TWO), [0, 0]),
    (&[], (INFINITY, INFINITY), [0, 0]),
    (&[], (ONE, INFINITY), [0, NO_MODEL]),
    (&[7], (NAN, ONE), [0, NO_MODEL]),
    (&[0, 0, 0, 0x40], (ONE, TWO), [0, FORM]),
    (&[3, 0, 0, 0, 0x40], (ONE, INFINITY), [FORM, 0]),
    (&[4, 0, 0, 0, 0x40], (ONE, TWO), [FORM, FORM]),
    (
        &[0, 0, 0x80, 0x3F, 0, 0, 0x80, 0x7F],
        (ONE, TWO),
        [FORM, NO_MODEL],
    ),
    (&[1, 2], (ONE, TWO), [FORM, FORM]),
    (&[0; 9], (ONE, TWO), [FORM, FORM]),
];

/// Models, and the cause that their number brings.
pub const MODELS: [(u32, u32); 4] = [(0, 0), (1, 0), (2, LIMIT), (u32::MAX, LIMIT)];
