//! Streams of MacaqueV, and the bounds of what they keep.

use super::example::{Example, Said, left, said};
use crate::inputs::{NAN, ONE, TWO};
use modelardb_rattle::ErrorBound::{self, Absolute, Lossless, Relative};
use modelardb_rattle::ffi::{self, STATE_WORDS};
use modelardb_rattle::{
    MacaqueV, Opening, is_value_within_error_bound, macaque_v, maximum_allowed_deviation_bits,
};
use oracle::paper::MOST_VALUES;

const ON_ONE: Opening = Opening::On(1.0);

pub const EXAMPLES: &[Example] = &[
    // Bounds.
    (
        "Absolute(0), 1, 1: refused with 1, though the values are equal",
        || within(Absolute(0.0), 1.0, 1.0),
        Err((1, 0, 0)),
    ),
    (
        "Relative(NaN) is not allowed",
        || within(Relative(f32::NAN), 1.0, 1.0),
        Err((1, 0, 0)),
    ),
    (
        "deviation of Relative(50), NaN: 7FF8000000000000",
        || deviation(Relative(50.0), f64::NAN),
        Ok(&[0x7FF8_0000_0000_0000]),
    ),
    (
        "deviation of 1 under Absolute(1): 1",
        || deviation(Absolute(1.0), 1.0),
        Ok(&[0x3FF0_0000_0000_0000]),
    ),
    (
        "deviation of 1 under Relative(100): 1",
        || deviation(Relative(100.0), 1.0),
        Ok(&[0x3FF0_0000_0000_0000]),
    ),
    // What is kept.
    (
        "Lossless 7FC00001, 7FC00002 has minimum and maximum 7FC00002",
        || extremes(&[0x7FC0_0001, 0x7FC0_0002]),
        Ok(&[0x7FC0_0002, 0x7FC0_0002]),
    ),
    (
        "the minimum of -0 and +0 is -0",
        || extremes(&[0x8000_0000, 0x0000_0000]),
        Ok(&[0x8000_0000, 0x8000_0000]),
    ),
    (
        "greatest s: 7FC12345 becomes 7FC00000",
        || kept(Absolute(1.0), ONE, 0x7FC1_2345),
        Ok(&[0x7FC0_0000]),
    ),
    (
        "greatest s: 7F800003 becomes 7F800002",
        || kept(Absolute(1.0), ONE, 0x7F80_0003),
        Ok(&[0x7F80_0002]),
    ),
    (
        "greatest s: FFFFFFFF becomes FFC00000",
        || kept(Absolute(1.0), ONE, 0xFFFF_FFFF),
        Ok(&[0xFFC0_0000]),
    ),
    (
        "a lossy NaN after a NaN keeps the last value's bits",
        || kept(Absolute(1.0), 0x7FC0_0001, 0xFFFF_FFFF),
        Ok(&[0x7FC0_0001]),
    ),
    (
        "Relative(50), 1.0 after 2.0: 1.0 is kept",
        || kept(Relative(50.0), TWO, ONE),
        Ok(&[0x3F80_0000]),
    ),
    (
        "Absolute(100): 1.9 after 1000 keeps 1.0",
        || kept(Absolute(100.0), 1000f32.to_bits(), 1.9f32.to_bits()),
        Ok(&[0x3F80_0000]),
    ),
    (
        "Absolute(0.01): 1,000,000 after 0 keeps it",
        || kept(Absolute(0.01), 0, 1e6f32.to_bits()),
        Ok(&[0x4974_2400]),
    ),
    (
        "Relative(0.07): 00111BF2 after 0 keeps 00111A00",
        || kept(Relative(0.07), 0, 0x0011_1BF2),
        Ok(&[0x0011_1A00]),
    ),
    // The writer.
    (
        "Lossless, opened on 1: 2, then 2 in a second call: `C2 47 FC`",
        || in_two_calls(TWO),
        Ok(&[0xC2, 0x47, 0xFC]),
    ),
    (
        "Lossless, opened on 1: 1, then 1 in a second call: `A0`",
        || in_two_calls(ONE),
        Ok(&[0xA0]),
    ),
    (
        "with first, at length 0, the last value is ignored",
        || from_row((NAN, TWO), (0, 0), &[ONE], 4),
        Ok(&[0x3F80_0000, 0x3F, 0x80, 0x00, 0x00]),
    ),
    (
        "length 0, minimum 1.0, 2.0 written: the minimum stays 1.0",
        || from_row((ONE, 0), (0, 0), &[TWO], 4),
        Ok(&[0x3F80_0000, 0x40, 0x00, 0x00, 0x00]),
    ),
    (
        "1 byte, place 8, length 4 may be used",
        || from_row((NAN, ONE), (8, 4), &[], 1),
        Ok(&[0x7FC0_0000, 0xFF]),
    ),
    (
        "1 byte, place 9: 2",
        || from_row((NAN, ONE), (9, 4), &[], 1),
        Err((2, 0, 0)),
    ),
    (
        "Absolute(0), no values: 1",
        || {
            let mut row = [1, 0, NAN.into(), NAN.into(), 0, 255, 0, 1, 0, 0];
            left(
                ffi::macaque_v_compress_values(&mut row, &[], &mut []),
                vec![],
            )
        },
        Err((1, 0, 0)),
    ),
    // Reopening.
    (
        "with first, 0 values, reopened at 0: last value +0",
        || reopened(&[], (0, 0), Opening::First),
        Ok(&[0x0000_0000]),
    ),
    (
        "k = 70,000, n = 1: 12",
        || reopened(&[0x80], (1, 70_000), ON_ONE),
        Err((12, 0, 0)),
    ),
    (
        "n above 65,536 is 3",
        || reopened(&[0x80], (MOST_VALUES + 1, 0), ON_ONE),
        Err((3, 0, 0)),
    ),
    (
        "case b reopened behind 2 values: the bits after its place 34 are zeroed in the byte that this cuts",
        || {
            let mut buffer = [0x3F, 0x80, 0x00, 0x00, 0xB0, 0x91, 0xFE, 0xFF];
            let writer = MacaqueV::reopen(&mut buffer, 8, 4, 2, Opening::First, Lossless);
            said(writer, |_| buffer.to_vec())
        },
        Ok(&[0x3F, 0x80, 0x00, 0x00, 0x80, 0x91, 0xFE, 0xFF]),
    ),
    // Reading.
    (
        "`FE 0C` on 1.0 is accepted with count 1",
        || read(&[0xFE, 0x0C], 1),
        Ok(&[0x3F80_0001]),
    ),
    (
        "`FE 0C` on 1.0 is accepted with count 2",
        || read(&[0xFE, 0x0C], 2),
        Ok(&[0x3F80_0001, 0x3F80_0001]),
    ),
    ("count 0 and no bytes: no values", || read(&[], 0), Ok(&[])),
    (
        "count 0 with bytes is 8: `00`, 0",
        || read(&[0x00], 0),
        Err((8, 0, 0)),
    ),
    ("no bytes, 1: 5", || read(&[], 1), Err((5, 0, 0))),
    ("`C8 00`, 1: 7", || read(&[0xC8, 0x00], 1), Err((7, 0, 0))),
    (
        "`00 00 00 00 40`, 1: no window, 33 bits at hand: 6",
        || read(&[0x00, 0x00, 0x00, 0x00, 0x40], 1),
        Err((6, 0, 0)),
    ),
    (
        "mode 2, count 0, no bytes: 3",
        || left(ffi::macaque_v_grid(&[], 0, (2, 0), &mut []), vec![]),
        Err((3, 0, 0)),
    ),
];

fn within(bound: ErrorBound, real: f32, approximate: f32) -> Said {
    let answer = is_value_within_error_bound(bound, real, approximate);
    said(answer, |is_within| vec![is_within])
}

fn deviation(bound: ErrorBound, value: f64) -> Said {
    let answer = maximum_allowed_deviation_bits(bound, value.to_bits());
    said(answer, |deviation| vec![deviation])
}

/// The least and the greatest of values that are written in full.
fn extremes(values: &[u32]) -> Said {
    let writer = MacaqueV::new(Lossless, Opening::First).and_then(|mut writer| {
        writer.compress_values_bits(values, &mut [0; 16])?;
        Ok(writer)
    });
    said(writer, |writer| {
        vec![writer.min_value_bits(), writer.max_value_bits()]
    })
}

/// What is kept for a value behind `last`.
fn kept(bound: ErrorBound, last: u32, value: u32) -> Said {
    let opening = Opening::on_bits(last);
    let writer = MacaqueV::new(bound, opening).and_then(|mut writer| {
        writer.compress_values_bits(&[value], &mut [0; 6])?;
        Ok(writer)
    });
    said(writer, |writer| vec![writer.last_value_bits()])
}

/// The bytes of a value that is written twice, each time by a call of its own, on 1.0.
fn in_two_calls(value: u32) -> Said {
    let mut buffer = [0; 12];
    let writer = MacaqueV::new(Lossless, ON_ONE).and_then(|mut writer| {
        writer.compress_values_bits(&[value], &mut buffer)?;
        writer.compress_values_bits(&[value], &mut buffer)?;
        Ok(writer)
    });
    said(writer, |writer| buffer[..writer.bytes_used()].to_vec())
}

/// A handed-in state with its first value in full: its minimum and last value, place and length. The
/// minimum after the write, and the bytes.
fn from_row(
    (min, last): (u32, u32),
    (place, length): (u64, u64),
    values: &[u32],
    room: usize,
) -> Said {
    let values_kept = [min, NAN, last].map(u64::from);
    let mut row = [0; STATE_WORDS];
    row[2..5].copy_from_slice(&values_kept);
    row[5..].copy_from_slice(&[255, 0, 1, place, length, 0]);
    let mut buffer = vec![0xFF; room];
    let fault = ffi::macaque_v_compress_values(&mut row, values, &mut buffer);
    let bytes = buffer.into_iter().map(u64::from);
    left(fault, [row[2]].into_iter().chain(bytes).collect())
}

/// The last value of a stream that is reopened behind k of its values.
fn reopened(bytes: &[u8], (count, k): (usize, usize), opening: Opening) -> Said {
    let mut buffer = bytes.to_vec();
    let writer = MacaqueV::reopen(&mut buffer, bytes.len(), count, k, opening, Lossless);
    said(writer, |writer| vec![writer.last_value_bits()])
}

/// The values of a stream that opens on 1.0.
fn read(bytes: &[u8], count: usize) -> Said {
    let mut out = vec![0; count];
    said(macaque_v::grid_bits(bytes, count, ON_ONE, &mut out), |()| {
        out
    })
}
