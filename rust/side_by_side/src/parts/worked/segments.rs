//! Parameter bytes and segments.

use super::example::{Example, Said, left, said};
use crate::inputs::{ONE, TWO};
use modelardb_rattle::ErrorBound::Lossless;
use modelardb_rattle::Model::{PMCMean, Swing};
use modelardb_rattle::ffi::{self, SEGMENT_WORDS, Words};
use modelardb_rattle::parameters::{
    decode_values_for_pmc_mean, decode_values_for_swing, encode_values_for_pmc_mean,
    encode_values_for_swing,
};
use modelardb_rattle::{Model, Segment};

/// What the writer of parameter bytes is handed where there are no residuals.
const NONE: (f32, f32) = (f32::NAN, f32::NAN);

const LOSSLESS: Words = (0, 0);

pub const EXAMPLES: &[Example] = &[
    // Document 01, "Parameter bytes".
    (
        "PMC 5, residuals 4 to 5: `01`",
        || pmc_mean(5.0, (4.0, 5.0)),
        Ok(&[0x01]),
    ),
    (
        "Residuals 4 to 6: `00 00 A0 40`",
        || pmc_mean(5.0, (4.0, 6.0)),
        Ok(&[0x00, 0x00, 0xA0, 0x40]),
    ),
    (
        "PMC NaN, residuals 4 to 6: `00 00 C0 7F`. The Rust writes nothing and reads 4",
        || pmc_mean(f32::NAN, (4.0, 6.0)),
        Ok(&[0x00, 0x00, 0xC0, 0x7F]),
    ),
    (
        "Swing (1, 2), residuals 0.5 to 1.5: `00 00 00 80 3F`",
        || swing((1.0, 2.0), (0.5, 1.5)),
        Ok(&[0x00, 0x00, 0x00, 0x80, 0x3F]),
    ),
    (
        "Swing (2, 1), residuals 1 to 3: `03 00 00 00 40`",
        || swing((2.0, 1.0), (1.0, 3.0)),
        Ok(&[0x03, 0x00, 0x00, 0x00, 0x40]),
    ),
    (
        "Swing (-0, +0), none: `00 00 00 80 00 00 00 00`",
        || swing((-0.0, 0.0), NONE),
        Ok(&[0x00, 0x00, 0x00, 0x80, 0x00, 0x00, 0x00, 0x00]),
    ),
    // The same, read against the finished minimum and maximum.
    (
        "PMC 5, residuals 4 to 5, read",
        || pmc_mean_in((4.0, 5.0), &[0x01]),
        Ok(&[0x40A0_0000]),
    ),
    (
        "PMC 5, residuals 4 to 6, read",
        || pmc_mean_in((4.0, 6.0), &[0x00, 0x00, 0xA0, 0x40]),
        Ok(&[0x40A0_0000]),
    ),
    (
        "PMC NaN, residuals 4 to 6, read",
        || pmc_mean_in((4.0, 6.0), &[0x00, 0x00, 0xC0, 0x7F]),
        Ok(&[0x7FC0_0000]),
    ),
    (
        "Swing (1, 2), residuals 0.5 to 1.5, read",
        || swing_in((0.5, 2.0), &[0x00, 0x00, 0x00, 0x80, 0x3F]),
        Ok(&[0x3F80_0000, 0x4000_0000]),
    ),
    (
        "Swing (2, 1), residuals 1 to 3, read",
        || swing_in((1.0, 3.0), &[0x03, 0x00, 0x00, 0x00, 0x40]),
        Ok(&[0x4000_0000, 0x3F80_0000]),
    ),
    (
        "Swing (-0, +0), none, read",
        || swing_in((-0.0, -0.0), &[0, 0, 0, 0x80, 0, 0, 0, 0]),
        Ok(&[0x8000_0000, 0x0000_0000]),
    ),
    (
        "A one-byte form's byte isn't examined",
        || pmc_mean_in((1.0, 2.0), &[0xFF]),
        Ok(&[0x4000_0000]),
    ),
    (
        "3 parameter bytes of PMC: 9",
        || pmc_mean_in((1.0, 2.0), &[1, 2, 3]),
        Err((9, 0, 0)),
    ),
    (
        "flag 4 of Swing: 9",
        || swing_in((1.0, 2.0), &[4, 0, 0, 0, 0]),
        Err((9, 0, 0)),
    ),
    // Our readings.
    (
        "Swing (5, 5), no residuals: `00`",
        || swing((5.0, 5.0), NONE),
        Ok(&[0x00]),
    ),
    (
        "Swing (1, NaN) is written in the 8-byte form",
        || values(Swing(1.0, f32::NAN), &[]),
        Ok(&[0x00, 0x00, 0x80, 0x3F, 0x00, 0x00, 0xC0, 0x7F]),
    ),
    (
        "PMC NaN with residual 7FC00001 writes no parameter byte",
        || values(PMCMean(f32::NAN), &[0x7FC0_0001]),
        Ok(&[]),
    ),
    (
        "PMC 7FC12345, residual 00000000, Lossless: residual bytes `C2 4F FC 01`",
        || residuals(PMCMean(f32::from_bits(0x7FC1_2345)), &[0x0000_0000]),
        Ok(&[0xC2, 0x4F, 0xFC, 0x01]),
    ),
    (
        "model 0, first 1.0, last 2.0, residual 1.0, Lossless: the residual is a repeat",
        || written((0, ONE, TWO), LOSSLESS, &[ONE], (8, 8)),
        Ok(&[0x80, 1]),
    ),
    (
        "a segment of PMC NaN with the residual 7FC00001: 7FC00000, 7FC00001",
        || grid(PMCMean(f32::NAN), &[0x7FC0_0001], &[0, 5]),
        Ok(&[0x7FC0_0000, 0x7FC0_0001]),
    ),
    (
        "room for the parameters and none for one residual: 4",
        || written((0, ONE, ONE), LOSSLESS, &[ONE], (8, 0)),
        Err((4, 0, 0)),
    ),
    (
        "a model above 1 is 3",
        || written((2, ONE, ONE), LOSSLESS, &[], (8, 8)),
        Err((3, 0, 0)),
    ),
    (
        "writing a segment: 1, 3, 4: all three of them give 1",
        || written((2, ONE, ONE), (1, 0), &[ONE; 256], (0, 0)),
        Err((1, 0, 0)),
    ),
    (
        "256 residuals: 3",
        || residuals(PMCMean(1.0), &[ONE; 256]),
        Err((3, 0, 0)),
    ),
    (
        "no timestamps at all: 12",
        || stored(0, &[], &[]),
        Err((12, 0, 0)),
    ),
    (
        "a count byte above the total: 12",
        || stored(0, &[0x80, 2], &[5]),
        Err((12, 0, 0)),
    ),
    (
        "a Swing segment that owns one timestamp: 10",
        || stored(1, &[0x80, 1], &[5, 6]),
        Err((10, 0, 0)),
    ),
    (
        "all timestamps handed in are judged, with PMC and for residuals too: 10",
        || stored(0, &[0x80, 1], &[5, 5]),
        Err((10, 0, 0)),
    ),
    (
        "a residual count byte 0 is 9",
        || stored(0, &[0x80, 0], &[5, 6]),
        Err((9, 0, 0)),
    ),
    (
        "12, which comes first, takes it as 0 residuals",
        || stored(0, &[0x80, 0], &[]),
        Err((12, 0, 0)),
    ),
    (
        "10, which comes first, takes it as 0 residuals",
        || stored(1, &[0x80, 0], &[5]),
        Err((10, 0, 0)),
    ),
    (
        "a segment of model 2: 3",
        || stored(2, &[], &[5]),
        Err((3, 0, 0)),
    ),
    ("model 3: 3", || stored(3, &[], &[5]), Err((3, 0, 0))),
    (
        "without residuals the model's sum alone: -0 stays -0",
        || sums(PMCMean(-0.0), &[], &[5]),
        Ok(&[0x8000_0000, 0x8000_0000]),
    ),
    (
        "Swing 20.03 to 20.21 at 1.7e15 + 0, 1000, 2000, residual 25.0 at + 3000: reads 25.0",
        || {
            let times = [0, 1000, 2000, 3000].map(|time| 1_700_000_000_000_000 + time);
            let drawn = grid(Swing(20.03, 20.21), &[0x41C8_0000], &times);
            drawn.map(|values| values[3..].to_vec())
        },
        Ok(&[0x41C8_0000]),
    ),
    (
        "sum of Swing 1 to 3 at 0, 10, 20, residuals 9, 9.5 at 31, 40: 24.5",
        || {
            sums(
                Swing(1.0, 3.0),
                &[0x4110_0000, 0x4118_0000],
                &[0, 10, 20, 31, 40],
            )
        },
        Ok(&[0x41C4_0000, 0x41C4_0000]),
    ),
];

fn pmc_mean(value: f32, (min, max): (f32, f32)) -> Said {
    let mut out = [0; 8];
    let length = encode_values_for_pmc_mean(value, min, max, &mut out);
    said(length, |length| out[..length].to_vec())
}

fn swing((first, last): (f32, f32), (min, max): (f32, f32)) -> Said {
    let mut out = [0; 8];
    let length = encode_values_for_swing(first, last, min, max, &mut out);
    said(length, |length| out[..length].to_vec())
}

fn pmc_mean_in((min, max): (f32, f32), bytes: &[u8]) -> Said {
    let value = decode_values_for_pmc_mean(min, max, bytes);
    said(value, |value| vec![value.to_bits()])
}

fn swing_in((min, max): (f32, f32), bytes: &[u8]) -> Said {
    let ends = decode_values_for_swing(min, max, bytes);
    said(ends, |(first, last)| vec![first.to_bits(), last.to_bits()])
}

/// The parameter bytes of a segment.
fn values(model: Model, list: &[u32]) -> Said {
    said(Segment::write_bits(model, Lossless, list), |segment| {
        segment.values
    })
}

/// The residual bytes of a segment.
fn residuals(model: Model, list: &[u32]) -> Said {
    said(Segment::write_bits(model, Lossless, list), |segment| {
        segment.residuals
    })
}

/// The residual bytes by the C face, in outputs of these sizes.
fn written(
    (model, first, last): (u32, u32, u32),
    bound: Words,
    list: &[u32],
    rooms: (usize, usize),
) -> Said {
    let (mut values, mut stream) = (vec![0; rooms.0], vec![0; rooms.1]);
    let (model, mut row) = ((model, (first, last)), [0; SEGMENT_WORDS]);
    let fault = ffi::segment_write(model, bound, list, &mut values, &mut stream, &mut row);
    stream.truncate(row[3] as usize);
    left(fault, stream.into_iter().map(u64::from).collect())
}

/// All values of a segment, written and drawn.
fn grid(model: Model, list: &[u32], times: &[i64]) -> Said {
    let mut out = vec![0; times.len()];
    let segment = Segment::write_bits(model, Lossless, list);
    let drawn = segment.and_then(|segment| segment.grid_bits(times, &mut out));
    said(drawn, |()| out)
}

/// Its sum in both forms.
fn sums(model: Model, list: &[u32], times: &[i64]) -> Said {
    let sums = Segment::write_bits(model, Lossless, list).and_then(|segment| {
        let average = segment.sum_by_average_bits(times)?;
        Ok([average, segment.sum_over_bits(times)?])
    });
    said(sums, |sums| sums.to_vec())
}

/// The grid of a segment of these residual bytes, whose least and greatest value is 1.
fn stored(model_type_id: u32, bytes: &[u8], times: &[i64]) -> Said {
    let segment = Segment {
        model_type_id,
        min_value_bits: ONE,
        max_value_bits: ONE,
        values: vec![],
        residuals: bytes.to_vec(),
    };
    let mut out = vec![0; times.len()];
    said(segment.grid_bits(times, &mut out), |()| out)
}
