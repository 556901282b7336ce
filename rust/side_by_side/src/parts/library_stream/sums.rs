//! The running sum in a writer's row: what the sum call answers on the bytes in use, written and reopened at every
//! value; and a wrong one that is handed in, which is carried on by the same additions and moves nothing else.

use super::{Stream, both};
use crate::context::Context;
use crate::inputs::{INFINITY, NAN, ONE, SPECIAL};
use crate::lent::{STALE, STALE_VALUE, STALE_WORD};
use crate::parts::library_table::both as beside;
use modelardb_rattle::Fault;
use modelardb_rattle::ffi::{ENTRY_WORDS, STATE_WORDS, VALUES_PER_ENTRY};
use oracle::paper::MOST_VALUES;
use oracle::paper::macaque_v::Opening;

/// Values whose sums round, overflow, cancel or are NaN, and both zeros.
const HEAVY: [u32; 12] = [
    0x0000_0000,
    0x8000_0000,
    0x0000_0001,
    ONE,
    0xBF80_0000,
    0x4B80_0000, // 2^24: one more is lost
    0x7F7F_FFFF, // the greatest: twice it is infinite
    0xFF7F_FFFF,
    INFINITY,
    0xFF80_0000,
    NAN,
    0xFFC1_2345,
];

/// The word of the sum.
const SUM: usize = 10;

pub fn sums(context: &mut Context) {
    for round in 0..context.rounds(3_000) {
        let count = context.inputs.below(12) as usize;
        let values = if round % 3 == 0 {
            context.inputs.values(count)
        } else {
            (0..count).map(|_| context.inputs.pick(&HEAVY)).collect()
        };
        let (bound, opening) = (context.inputs.bound(), context.inputs.opening());
        let stream = Stream::new(context, bound, opening, &values);
        for k in 0..=count {
            let row = at_value(context, &stream, k);
            for sum in SPECIAL {
                with_another(context, &stream, k, &row, sum);
            }
        }
    }
    // The longest, of readings alone, so that every sum is a number.
    for opening in [Opening::WithFirst, Opening::On(ONE)] {
        let values: Vec<u32> = (0..MOST_VALUES).map(|_| context.inputs.reading()).collect();
        let bound = context.inputs.bound();
        let stream = Stream::new(context, bound, opening, &values);
        for k in [0, 1, 1_023, 1_024, 1_025, MOST_VALUES - 1, MOST_VALUES] {
            let row = at_value(context, &stream, k);
            for sum in [ONE, 0xC2C8_0000, 0xFFC1_2345] {
                with_another(context, &stream, k, &row, sum);
            }
        }
    }
}

/// Reopened behind the first k values, and written so far: the sum is the call's on the bytes in use. The row at k.
fn at_value(context: &mut Context, stream: &Stream, k: usize) -> Vec<u64> {
    let row = [STALE_WORD; STATE_WORDS];
    let (_, row, mut cut) = both::reopened(context, &stream.bytes, stream.at(k), &row);
    cut.truncate(row[8].div_ceil(8) as usize);
    as_the_call(context, stream, k, &row, &cut);
    let (_, written, mut bytes) = both::written(
        context,
        &stream.fresh,
        &stream.values[..k],
        &vec![STALE; stream.bytes.len()],
    );
    bytes.truncate(written[8].div_ceil(8) as usize);
    as_the_call(context, stream, k, &written, &bytes);
    row
}

fn as_the_call(context: &mut Context, stream: &Stream, k: usize, row: &[u64], bytes: &[u8]) {
    let of = (bytes, k, stream.opening);
    let (fault, out) = both::read(context, both::SUM, of, &[STALE_VALUE]);
    let input = || format!("the sum of {k} in {bytes:02X?} {:X?}", stream.opening);
    let told = (fault, u64::from(out[0]));
    context.same("the row", told, (Fault::ACCEPTED, row[SUM]), input);
}

/// Handed in at k with another sum, plainly and with a table beside it: all else is as with the right one, and the sum
/// is the same additions.
fn with_another(context: &mut Context, stream: &Stream, k: usize, row: &[u64], sum: u32) {
    let mut wrong = row.to_vec();
    wrong[SUM] = sum.into();
    let (fault, left, bytes) = both::written(context, &wrong, &stream.values[k..], &stream.bytes);
    let mut right = stream.row.clone();
    right[SUM] = carried(context, stream, k, sum).into();
    let input = || format!("the sum {sum:08X} at {k} of {:08X?}", stream.values);
    let expected = (Fault::ACCEPTED, &right, &stream.bytes);
    context.same("another sum", expected, (fault, &left, &bytes), input);

    let before = beside::Writer {
        row: wrong,
        buffer: stream.bytes.clone(),
        table: beside::Table::new(
            &vec![STALE_WORD; ENTRY_WORDS * stream.count().div_ceil(VALUES_PER_ENTRY)],
            k.div_ceil(VALUES_PER_ENTRY),
        ),
    };
    let (fault, left) = beside::written(context, &before, &stream.values[k..]);
    let expected = (Fault::ACCEPTED, &right, &stream.bytes);
    let found = (fault, &left.row, &left.buffer);
    context.same("another sum beside a table", expected, found, input);
}

/// The sum's bits after the values kept behind the first k: a raw first one sets it, and any other is added. Where
/// none comes it stays as it is.
fn carried(context: &mut Context, stream: &Stream, k: usize, sum: u32) -> u32 {
    let of = (&stream.bytes[..], stream.count(), stream.opening);
    let out = vec![STALE_VALUE; stream.count()];
    let (_, kept) = both::read(context, both::GRID, of, &out);
    let values = kept[k..].iter().map(|&bits| f32::from_bits(bits));
    let is_raw = k == 0 && stream.opening.0 == 0;
    let total = values
        .enumerate()
        .fold(f32::from_bits(sum), |total, (number, value)| {
            if is_raw && number == 0 {
                value
            } else {
                total + value
            }
        });
    match total {
        _ if k == stream.count() => sum,
        total if total.is_nan() => NAN,
        total => total.to_bits(),
    }
}
