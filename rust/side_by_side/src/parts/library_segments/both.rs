//! Each call of the compiled face and the paper's on the same lent memory: what is answered, number,
//! value and place, and all that is lent afterwards are compared, and the library's memory stands between guards.

use super::source::{Outputs, Source};
use crate::context::Context;
use crate::face::segments as face;
use crate::lent::{BYTE_GUARD, Left, Lent, TIME_GUARD, VALUE_GUARD, WORD_GUARD, compared, to_read};
use modelardb_rattle::ffi::{self, Pair, StoredSegment};
use modelardb_rattle::{Fault, Segment};
use oracle::paper::{MOST_RESIDUALS, refusal};

type Encode = fn(Pair, Pair, &mut [u8], &mut [u64]) -> Fault;
type Decode = fn(Pair, &[u8], &mut [u32]) -> Fault;
type Read = fn(StoredSegment, &[i64], &mut [u32]) -> Fault;

/// Parameter bytes of each model, written by the paper and by the library. PMC-Mean has one parameter.
const ENCODE: [[Encode; 2]; 2] = [
    [
        |(value, _), residuals, out, row| {
            face::encode_values_for_pmc_mean(value, residuals, out, row)
        },
        |(value, _), residuals, out, row| {
            ffi::encode_values_for_pmc_mean(value, residuals, out, row)
        },
    ],
    [face::encode_values_for_swing, ffi::encode_values_for_swing],
];

/// The same, read.
const DECODE: [[Decode; 2]; 2] = [
    [
        face::decode_values_for_pmc_mean,
        ffi::decode_values_for_pmc_mean,
    ],
    [face::decode_values_for_swing, ffi::decode_values_for_swing],
];

/// The calls that read a segment.
pub const GRID: [Read; 2] = [face::segment_grid, ffi::segment_grid];
pub const BY_AVERAGE: [Read; 2] = [face::segment_sum_by_average, ffi::segment_sum_by_average];
pub const OVER: [Read; 2] = [face::segment_sum_over, ffi::segment_sum_over];

/// Parameter bytes of a model into `out`, and how many they are into `row`: what is answered, and both.
pub fn encoded(
    context: &mut Context,
    (model, ends): (u32, Pair),
    residuals: Pair,
    out: &[u8],
    row: &[u64],
) -> (Fault, Vec<u8>, Vec<u64>) {
    let [paper, library] = ENCODE[model as usize];
    let (mut bytes, mut words) = (out.to_vec(), row.to_vec());
    let fault = paper(ends, residuals, &mut bytes, &mut words);
    let mut lent_out = Lent::new(out, BYTE_GUARD);
    let mut lent_row = Lent::new(row, WORD_GUARD);
    let ours = library(ends, residuals, lent_out.lend(), lent_row.lend());
    let (bytes_left, words_left) = (lent_out.content(), lent_row.content());
    let left = (ours, bytes_left.as_deref(), words_left.as_deref());
    let input =
        || format!("parameters of {model} {ends:08X?}, {residuals:08X?} into {out:X?} {row:X?}");
    if ours != Fault::ACCEPTED {
        context.same("a refusal", (ours, Some(out), Some(row)), left, input);
    }
    let expected = (fault, Some(&bytes[..]), Some(&words[..]));
    context.same("library", expected, left, input);
    (fault, bytes, words)
}

/// What parameter bytes of a model give with a segment's extremes into `out`.
pub fn decoded(
    context: &mut Context,
    model: u32,
    segment: Pair,
    values: &[u8],
    out: &[u32],
) -> Left<u32> {
    let ([paper, library], mut is_kept) = (DECODE[model as usize], true);
    let input = || format!("parameters {values:02X?} of {model} with {segment:08X?}");
    let left = compared(
        context,
        (out, VALUE_GUARD),
        |out| paper(segment, values, out),
        |out| {
            to_read((values, BYTE_GUARD), &mut is_kept, |values| {
                library(segment, values, out)
            })
        },
        input,
    );
    context.same("bytes lent", true, is_kept, input);
    left
}

/// A segment into the outputs: what is answered, and what they hold afterwards.
pub fn written(context: &mut Context, source: &Source, outputs: &Outputs) -> (Fault, Outputs) {
    let (mut values, mut residuals, mut row) = outputs.clone();
    let (model, bound) = ((source.model, source.ends), source.bound);
    let fault = face::segment_write(
        model,
        bound,
        &source.residuals,
        &mut values,
        &mut residuals,
        &mut row,
    );
    let paper = (fault, (values, residuals, row));
    written_as(context, &paper, source, outputs);
    paper
}

/// The library alone: it must leave what is given.
pub fn written_as(
    context: &mut Context,
    (fault, expected): &(Fault, Outputs),
    source: &Source,
    outputs: &Outputs,
) {
    let mut values = Lent::new(&outputs.0, BYTE_GUARD);
    let mut residuals = Lent::new(&outputs.1, BYTE_GUARD);
    let mut row = Lent::new(&outputs.2, WORD_GUARD);
    let mut is_kept = true;
    let (model, bound) = ((source.model, source.ends), source.bound);
    let ours = to_read((&source.residuals, VALUE_GUARD), &mut is_kept, |list| {
        let (values, residuals) = (values.lend(), residuals.lend());
        ffi::segment_write(model, bound, list, values, residuals, row.lend())
    });
    let (values, residuals, row) = (values.content(), residuals.content(), row.content());
    let contents = values.zip(residuals).zip(row);
    let contents = contents.map(|((values, residuals), row)| (values, residuals, row));
    let input = || format!("written {source} into {outputs:X?}");
    if ours != Fault::ACCEPTED {
        context.same("a refusal", Some(outputs), contents.as_ref(), input);
    }
    let expected = (*fault, Some(expected), true);
    context.same(
        "library",
        expected,
        (ours, contents.as_ref(), is_kept),
        input,
    );
}

/// The segment as both wrote it; over 255 residuals are 3.
pub fn segment_of(context: &mut Context, source: &Source) -> Option<Segment> {
    let (fault, (mut values, mut residuals, row)) = written(context, source, &source.outputs());
    let is_over = source.residuals.len() > MOST_RESIDUALS;
    let expected = Fault::from(if is_over { refusal::LIMIT } else { 0 });
    context.same("255 residuals", expected, fault, || source.to_string());
    values.truncate(row[2] as usize);
    residuals.truncate(row[3] as usize);
    (fault == Fault::ACCEPTED).then_some(Segment {
        model_type_id: source.model,
        min_value_bits: row[0] as u32,
        max_value_bits: row[1] as u32,
        values,
        residuals,
    })
}

/// A segment's grid or sum into `out`.
pub fn read(
    context: &mut Context,
    [paper, library]: [Read; 2],
    segment: StoredSegment,
    times: &[i64],
    out: &[u32],
) -> Left<u32> {
    let mut are_kept = [true; 3];
    let [times_kept, values_kept, residuals_kept] = &mut are_kept;
    let input = || format!("reading {segment:X?} at {times:?}");
    let left = compared(
        context,
        (out, VALUE_GUARD),
        |out| paper(segment, times, out),
        |out| {
            to_read((times, TIME_GUARD), times_kept, |times| {
                to_read((segment.values, BYTE_GUARD), values_kept, |values| {
                    to_read(
                        (segment.residuals, BYTE_GUARD),
                        residuals_kept,
                        |residuals| {
                            let lent = StoredSegment {
                                values,
                                residuals,
                                ..segment
                            };
                            library(lent, times, out)
                        },
                    )
                })
            })
        },
        input,
    );
    context.same("lists lent", [true; 3], are_kept, input);
    left
}
