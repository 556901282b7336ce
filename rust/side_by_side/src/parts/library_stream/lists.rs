//! Lists written and read: in one go and in pieces, with room to spare, with just enough, with one
//! byte too few.

use super::{Stream, both, room_for, said};
use crate::context::Context;
use crate::face;
use crate::inputs::DOZEN;
use crate::lent::STALE_VALUE;
use crate::parts::macaque_v::{self, BOUNDS};
use modelardb_rattle::{self as library, Fault};
use oracle::paper::MOST_VALUES;
use oracle::paper::macaque_v::Opening;
use oracle::paper::models::ErrorBound::{self, Absolute, Lossless, Relative};
use oracle::paper::refusal;
use oracle::paper::types::Extremes;
use oracle::rust;

/// Around what is special: few values, a machine word's bits, the library's own array of 1,024 values,
/// and the limit.
const LENGTHS: [usize; 14] = [
    0,
    1,
    2,
    63,
    64,
    65,
    1000,
    1023,
    1024,
    1025,
    2049,
    MOST_VALUES - 1,
    MOST_VALUES,
    MOST_VALUES + 1,
];

/// Every list of up to four of the dozen special values.
pub fn short_lists(context: &mut Context) {
    for list in macaque_v::short_lists(4) {
        for bound in BOUNDS {
            for opening in [Opening::WithFirst, Opening::On(DOZEN[3])] {
                let stream = written_and_read(context, bound, opening, &list);
                if list.len() < 4 {
                    just_enough(context, &stream);
                }
            }
        }
    }
}

pub fn lists(context: &mut Context) {
    for count in LENGTHS {
        for bound in [Lossless, Absolute(0.1), Relative(1.0)] {
            let (values, opening) = (context.inputs.values(count), context.inputs.opening());
            every_way(context, bound, opening, &values);
        }
    }
    for _ in 0..context.rounds(4_000) {
        let most = context.inputs.pick(&[8, 64, 1000]);
        let count = context.inputs.below(most + 1) as usize;
        let values = context.inputs.values(count);
        let (bound, opening) = (context.inputs.bound_for(&values), context.inputs.opening());
        every_way(context, bound, opening, &values);
    }
}

fn every_way(context: &mut Context, bound: ErrorBound, opening: Opening, values: &[u32]) {
    let stream = written_and_read(context, bound, opening, values);
    if stream.row[9] as usize != values.len() {
        return;
    }
    just_enough(context, &stream);
    in_pieces(context, &stream);
    by_the_safe_type(context, bound, opening, &stream);
    let one_more = [values, &[DOZEN[3]]].concat();
    let buffer = vec![0; room_for(one_more.len())];
    let front = &stream.bytes[..];
    let buffer = [front, &buffer[front.len()..]].concat();
    both::written(context, &stream.row, &one_more[values.len()..], &buffer);
}

/// Written in one go, read and summed; of more values than a stream may have, refused by each call.
fn written_and_read(
    context: &mut Context,
    bound: ErrorBound,
    opening: Opening,
    values: &[u32],
) -> Stream {
    let stream = Stream::new(context, bound, opening, values);
    let (bytes, count) = (&stream.bytes, values.len());
    let out = vec![STALE_VALUE; count + 1];
    let (fault, drawn) = both::read(context, both::GRID, (bytes, count, stream.opening), &out);
    let (_, sum) = both::read(
        context,
        both::SUM,
        (bytes, count, stream.opening),
        &[STALE_VALUE; 2],
    );
    if fault == Fault::ACCEPTED {
        if bound == Lossless {
            let input = || format!("read back {opening:X?} {values:08X?}");
            context.same("the inputs", &drawn[..count], values, input);
        }
        beside_the_rust(context, bound, opening, &stream, &drawn[..count], sum[0]);
    }
    stream
}

/// The library's stream, by the first rules where those part, and its values and sum beside those of the Rust's
/// text.
fn beside_the_rust(
    context: &mut Context,
    bound: ErrorBound,
    opening: Opening,
    stream: &Stream,
    drawn: &[u32],
    sum: u32,
) {
    let ours = rust::Stream {
        bytes: stream.bytes.clone(),
        extremes: Extremes {
            min_value: stream.row[2] as u32,
            max_value: stream.row[3] as u32,
        },
    };
    macaque_v::compare_written(context, &ours, bound, opening, &stream.values);
    // Listed: a count of 0 faults there.
    if drawn.is_empty() {
        return;
    }
    for rust in context.rust {
        let read = (rust.read)(&stream.bytes, drawn.len(), opening);
        let their_sum = (rust.sum)(&stream.bytes, drawn.len(), opening);
        let theirs = (read, their_sum, their_sum);
        // The sum call's, and the one that the writer's row holds.
        let ours = (Some(drawn.to_vec()), Some(sum), Some(stream.row[10] as u32));
        let input = || format!("reading {:02X?} {opening:X?}", stream.bytes);
        context.same(rust.name, ours, theirs, input);
    }
}

/// In a buffer of the stream's own size, and in one of a byte less.
fn just_enough(context: &mut Context, stream: &Stream) {
    let used = stream.bytes.len();
    let full = (Fault::ACCEPTED, stream.row.clone(), stream.bytes.clone());
    both::written_as(
        context,
        &full,
        &stream.fresh,
        &stream.values,
        &vec![0xFF; used],
    );
    if used > 0 {
        let short = vec![0xFF; used - 1];
        let (fault, ..) = both::written(context, &stream.fresh, &stream.values, &short);
        let input = || format!("a byte less: {:08X?}", stream.values);
        context.same("a byte less", refusal::OUTPUT.into(), fault, input);
    }
}

/// In pieces, some of them empty, the stream and the state are those of one go; in a buffer of just
/// their size.
fn in_pieces(context: &mut Context, stream: &Stream) {
    let (mut row, mut buffer) = (stream.fresh.clone(), vec![0xFF; stream.bytes.len()]);
    let mut rest = &stream.values[..];
    let count = stream.count() as u64;
    // A long list goes in pieces that are not too many: each is compared with all that is lent.
    let most = context.inputs.pick(&[1, 8, 1 + count / 2]) + count / 1000;
    while !rest.is_empty() {
        let length = context.inputs.below(most + 2).min(rest.len() as u64);
        let (piece, others) = rest.split_at(length as usize);
        (_, row, buffer) = both::written(context, &row, piece, &buffer);
        rest = others;
    }
    let input = || format!("in pieces of up to {most}: {:08X?}", stream.values);
    context.same(
        "pieces",
        (&stream.row, &stream.bytes),
        (&row, &buffer),
        input,
    );
}

/// The safe type over the same calls: its accessors say what the row holds.
fn by_the_safe_type(context: &mut Context, bound: ErrorBound, opening: Opening, stream: &Stream) {
    let (bound, opening) = (face::safe_bound(bound), face::safe_opening(opening));
    let mut buffer = vec![0; stream.bytes.len()];
    let mut writer = library::MacaqueV::new(bound, opening).expect("an allowed bound");
    let answer = writer.compress_values_bits(&stream.values, &mut buffer);
    let input = || format!("safe type {bound:?} {opening:?} {:08X?}", stream.values);
    context.same("safe type", &stream.row[2..], &said(&writer)[..], input);
    let rest = (answer, writer.error_bound(), buffer);
    context.same(
        "safe type",
        (Ok(()), bound, stream.bytes.clone()),
        rest,
        input,
    );
}
