//! MacaqueV: streams written, read, summed, damaged, stopped and resumed.

use crate::context::Context;
use crate::inputs::DOZEN;
use crate::shape;
use oracle::paper::Read;
use oracle::paper::macaque_v::{self, MacaqueV, Opening};
use oracle::paper::models::ErrorBound::{self, Absolute, Lossless, Relative};
use oracle::paper::models::is_value_within_error_bound;
use oracle::paper::refusal;
use oracle::paper::types::Extremes;
use oracle::rust::Stream;

/// Bounds of each kind, narrow and wide.
pub const BOUNDS: [ErrorBound; 6] = [
    Lossless,
    Absolute(0.5),
    Absolute(1e-7),
    Relative(0.07),
    Relative(10.0),
    Relative(100.0),
];

pub fn streams(context: &mut Context) {
    let openings = [Opening::WithFirst, Opening::On(0), Opening::On(DOZEN[3])];
    for list in short_lists(3) {
        for bound in BOUNDS {
            for opening in openings {
                written_and_read(context, bound, opening, &list);
            }
        }
    }
    for _ in 0..context.rounds(12_000) {
        let most = context.inputs.pick(&[8, 64, 1000]);
        let count = context.inputs.below(most + 1) as usize;
        let values = context.inputs.values(count);
        let (bound, opening) = (context.inputs.bound_for(&values), context.inputs.opening());
        written_and_read(context, bound, opening, &values);
    }
}

/// All lists of the dozen special floats, up to a length.
pub fn short_lists(most: usize) -> Vec<Vec<u32>> {
    let mut lists = vec![vec![]];
    let mut longest = lists.clone();
    for _ in 0..most {
        let longer = |list: &Vec<u32>| DOZEN.map(|value| [&list[..], &[value]].concat());
        longest = longest.iter().flat_map(longer).collect();
        lists.extend_from_slice(&longest);
    }
    lists
}

/// The paper's stream of a list, and the state that wrote it.
pub fn written(bound: ErrorBound, opening: Opening, values: &[u32]) -> (Vec<u8>, MacaqueV) {
    let mut buffer = vec![0xFF; 6 * values.len()];
    let writer = MacaqueV::new(bound, opening).expect("an allowed bound");
    let writer = writer.compress_values(values, &mut buffer);
    let writer = writer.expect("room for 45 bits a value");
    buffer.truncate(writer.place.div_ceil(8));
    (buffer, writer)
}

/// The paper's stream of a list as the Rust's text finishes it.
fn finished(bound: ErrorBound, opening: Opening, values: &[u32]) -> Stream {
    let (bytes, writer) = written(bound, opening, values);
    Stream {
        bytes,
        extremes: Extremes {
            min_value: writer.min_value,
            max_value: writer.max_value,
        },
    }
}

fn written_and_read(context: &mut Context, bound: ErrorBound, opening: Opening, values: &[u32]) {
    let paper = finished(bound, opening, values);
    let input = || format!("stream {:X?} {opening:X?} {values:08X?}", bound.row());
    compare_written(context, &paper, bound, opening, values);
    if bound == Lossless {
        let read = read(&paper.bytes, values.len(), opening);
        context.same("the inputs", read, Ok(values.to_vec()), input);
    }
    compare_reading(context, &paper.bytes, values.len(), opening);
}

/// The stream of a list, by the first rules, beside those of the Rust's text.
pub fn compare_written(
    context: &mut Context,
    stream: &Stream,
    bound: ErrorBound,
    opening: Opening,
    values: &[u32],
) {
    let input = || format!("stream {:X?} {opening:X?} {values:08X?}", bound.row());
    let first = context.first(stream, || finished(bound, opening, values));
    for rust in context.rust {
        let theirs = (rust.write)(bound, &[(opening, values)]);
        if rust.is_filled() {
            context.same(rust.name, &first, &theirs, input);
        } else {
            // Listed: rewriting by log2.
            let is_listed = bound != Lossless;
            context.same_or(is_listed, rust.name, &first.bytes, &theirs.bytes, input);
        }
    }
}

fn read(bytes: &[u8], count: usize, opening: Opening) -> Read<Vec<u32>> {
    let mut out = vec![0; count];
    macaque_v::grid(bytes, count, opening, &mut out).map(|()| out)
}

/// Reads and sums a stream on all sides, and holds the refusal against the stream's shape. What the
/// paper refuses is listed: 5 faults there; 6 and 7 fault or answer anything; 8 and a count of 0 are
/// answered or fault.
fn compare_reading(context: &mut Context, bytes: &[u8], count: usize, opening: Opening) {
    let (paper, sum) = (
        read(bytes, count, opening),
        macaque_v::sum(bytes, count, opening),
    );
    let input = || format!("reading {bytes:02X?}, {count} values, {opening:X?}");
    let refusal = shape::refusal_of(bytes, count, opening);
    let refusals = (paper.clone().err(), sum.err());
    context.same("the shape", refusals, (refusal, refusal), input);
    if count == 0 && refusal.is_none() {
        context.same(
            "no values",
            (paper.clone(), sum),
            (Ok(vec![]), Ok(0)),
            input,
        );
    }
    for rust in context.rust {
        let theirs = (
            (rust.read)(bytes, count, opening),
            (rust.sum)(bytes, count, opening),
        );
        match paper.as_ref().map_err(|refused| refused.number) {
            _ if count == 0 => {}
            Ok(values) => {
                let ours = (Some(values.clone()), sum.ok());
                context.same(rust.name, ours, theirs, input);
            }
            Err(refusal::ENDS_EARLY) => context.same(rust.name, (None, None), theirs, input),
            Err(refusal::LEFTOVER) => {
                context.same(
                    rust.name,
                    without_leftover(bytes, count, opening),
                    theirs.0,
                    input,
                );
            }
            Err(_) => {}
        }
    }
}

/// The values that stand before a leftover.
fn without_leftover(bytes: &[u8], count: usize, opening: Opening) -> Option<Vec<u32>> {
    let mut reader = macaque_v::Reader::open(bytes, opening);
    let mut values = vec![];
    for _ in 0..count {
        let (row, next) = reader.next_value().ok()?;
        values.push(row.value);
        reader = next;
    }
    Some(values)
}

pub fn damaged(context: &mut Context) {
    for _ in 0..context.rounds(2_500) {
        let count = 1 + context.inputs.below(12) as usize;
        let values = context.inputs.values(count);
        let (bound, opening) = (context.inputs.bound(), context.inputs.opening());
        let (bytes, _) = written(bound, opening, &values);
        for place in 0..8 * bytes.len() {
            let mut flipped = bytes.clone();
            flipped[place / 8] ^= 128 >> (place % 8);
            compare_reading(context, &flipped, count, opening);
        }
        for dropped in 0..bytes.len() {
            let rest = [&bytes[..dropped], &bytes[dropped + 1..]].concat();
            compare_reading(context, &rest, count, opening);
        }
        for other in [count - 1, count + 1, count + 8] {
            compare_reading(context, &bytes, other, opening);
        }
    }
    for _ in 0..context.rounds(150_000) {
        let length = context.inputs.below(12) as usize;
        let bytes: Vec<u8> = (0..length).map(|_| context.inputs.word() as u8).collect();
        let count = context.inputs.below(8) as usize;
        let opening = context.inputs.opening();
        compare_reading(context, &bytes, count, opening);
    }
}

/// The paper with itself: written in two calls, or reopened at k and written on, a stream is that of
/// one call, in a buffer that held other bytes.
pub fn resumed(context: &mut Context) {
    for _ in 0..context.rounds(10_000) {
        let count = context.inputs.below(24) as usize;
        let values = context.inputs.values(count);
        let (bound, opening) = (context.inputs.bound(), context.inputs.opening());
        let (bytes, whole) = written(bound, opening, &values);
        for k in 0..=count {
            let input = || {
                format!(
                    "resumed at {k}: {:X?} {opening:X?} {values:08X?}",
                    bound.row()
                )
            };
            let (mut buffer, before) = written(bound, opening, &values[..k]);
            buffer.resize(6 * count, 0xA5);
            let after = before.compress_values(&values[k..], &mut buffer);
            context.same("two calls", Ok(whole), after, input);
            context.same("two calls", &bytes[..], &buffer[..bytes.len()], input);

            let mut buffer = [&bytes[..], &vec![0x5A; 6 * count]].concat();
            let reopened = MacaqueV::reopen(&mut buffer, bytes.len(), count, k, opening, bound);
            context.same("reopened", Ok(before), reopened, input);
            let after = before.compress_values(&values[k..], &mut buffer);
            context.same("reopened", Ok(whole), after, input);
            context.same("reopened", &bytes[..], &buffer[..bytes.len()], input);
        }
    }
}

/// The paper with itself, by both rules: what stays within after more bits are cleared does so after fewer, so
/// that counting up to the first failure finds the greatest s too.
pub fn greatest(context: &mut Context) {
    for _ in 0..context.rounds(2_000_000) {
        let input = context.inputs.value();
        let cleared = |s: u32| input >> s << s;
        let s = context.inputs.below(24) as u32;
        let bound = context.inputs.bound_for(&[input, cleared(s)]);
        let is_within =
            |&s: &u32| is_value_within_error_bound(bound, input, cleared(s)) == Ok(true);
        let counts = || {
            let count = (0..=23).filter(is_within).count();
            (count, (0..=23).take_while(is_within).count())
        };
        let today = counts();
        let first = context.first(&today, counts);
        for (count, unbroken) in [today, first] {
            context.same("counted up", count, unbroken, || {
                format!("clearing {input:08X} within {:X?}", bound.row())
            });
        }
    }
}
