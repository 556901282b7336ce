//! The rows about MacaqueV.

use super::said::{Row, bytes, decimal, pattern, row, values};
use crate::face::{safe_bound, safe_opening};
use crate::inputs::{ONE, TWO};
use modelardb_rattle::{self as library, Refusal};
use oracle::paper::macaque_v::{self, MacaqueV, Opening};
use oracle::paper::models::ErrorBound::{self, Absolute, Lossless, Relative};
use oracle::paper::models::is_value_within_error_bound;
use oracle::paper::numbers::bits_of_f32;
use oracle::paper::{Answer, Fault, MOST_VALUES};
use oracle::rust::{Call, Calls};

const ON_ONE: Opening = Opening::On(ONE);
const MANY: usize = MOST_VALUES + 1;

pub fn rows() -> Vec<Row> {
    let mut rows = kept();
    rows.extend(two_calls());
    rows.extend(written_whole());
    rows.extend(at_the_bound());
    rows.extend(read());
    rows
}

/// The bytes after some calls of the paper's writer, each with values.
fn by_paper(bound: ErrorBound, opening: Opening, calls: &[&[u32]]) -> Answer<Vec<u8>> {
    let mut writer = MacaqueV::new(bound, opening)?;
    let mut buffer = vec![0; 6 * calls.concat().len()];
    for values in calls {
        writer = writer.compress_values(values, &mut buffer)?;
    }
    buffer.truncate(writer.place.div_ceil(8));
    Ok(buffer)
}

/// The same by the library.
fn by_library(bound: ErrorBound, opening: Opening, calls: &[&[u32]]) -> Result<Vec<u8>, Refusal> {
    let mut writer = library::MacaqueV::new(safe_bound(bound), safe_opening(opening))?;
    let mut buffer = vec![0; 6 * calls.concat().len()];
    for values in calls {
        writer.compress_values_bits(values, &mut buffer)?;
    }
    buffer.truncate(writer.bytes_used());
    Ok(buffer)
}

fn read_by_library(bytes: &[u8], count: usize, opening: Opening) -> Result<Vec<u32>, Refusal> {
    let mut out = vec![0; count];
    library::macaque_v::grid_bits(bytes, count, safe_opening(opening), &mut out).map(|()| out)
}

/// 2: What is kept of a value after another.
fn kept() -> Vec<Row> {
    let (million, of) = (1e6f32.to_bits(), f32::to_bits);
    vec![
        kept_one(
            "MacaqueV, Absolute(100): 1.9 after 1000",
            Absolute(100.0),
            (of(1000.0), of(1.9)),
        ),
        kept_one(
            "MacaqueV, Absolute(1): 7FC12345 after 1",
            Absolute(1.0),
            (ONE, 0x7FC1_2345),
        ),
        kept_one(
            "MacaqueV, Absolute(0.01): 1000000 after 0",
            Absolute(0.01),
            (0, million),
        ),
        kept_one(
            "MacaqueV, Relative(0.07): 00111BF2 after 0",
            Relative(0.07),
            (0, 0x0011_1BF2),
        ),
        // 11: A reading whose bits are cleared up to the bound.
        kept_one(
            "MacaqueV, Relative(37): 52012.7 after 0",
            Relative(37.0),
            (0, of(52012.7)),
        ),
    ]
}

fn kept_one(input: &'static str, bound: ErrorBound, (last, value): (u32, u32)) -> Row {
    let opening = Opening::On(last);
    let read = move |bytes: Vec<u8>| {
        let mut out = [0];
        macaque_v::grid(&bytes, 1, opening, &mut out).map(|()| out[0])
    };
    let paper = by_paper(bound, opening, &[&[value]]);
    let paper = paper.map_err(Fault::from).and_then(read);
    let ours = by_library(bound, opening, &[&[value]]);
    let ours = ours.and_then(|bytes| Ok(read_by_library(&bytes, 1, opening)?[0]));
    let there = move |rust: &Calls| {
        let bytes = (rust.write)(bound, &[(opening, &[value])]).bytes;
        (rust.read)(&bytes, 1, opening).map(|kept| kept[0])
    };
    row(input, (paper, ours), there, move |kept| {
        let is_within = is_value_within_error_bound(bound, value, kept) == Ok(true);
        let is_tiny = f32::from_bits(kept).is_subnormal();
        let kept = if is_tiny {
            pattern(kept)
        } else {
            decimal(kept)
        };
        kept + if is_within { "" } else { ", out of its bound" }
    })
}

/// 8: A writer that goes on in a second call, there with an opening of its own.
fn two_calls() -> [Row; 2] {
    let of = |input, value, second| {
        let calls: [&[u32]; 2] = [&[value], &[value]];
        let paper = by_paper(Lossless, ON_ONE, &calls);
        let ours = by_library(Lossless, ON_ONE, &calls);
        let there = move |rust: &Calls| {
            let calls: [Call; 2] = [(ON_ONE, &[value]), (second, &[value])];
            Some((rust.write)(Lossless, &calls).bytes)
        };
        row(input, (paper, ours), there, bytes)
    };
    let again = "MacaqueV, Lossless on 1: 2, and 2 in a second call";
    let with_first = "MacaqueV, Lossless on 1: 1, and 1 in a call of the mode with a first value";
    [
        of(again, TWO, ON_ONE),
        of(with_first, ONE, Opening::WithFirst),
    ]
}

/// 9: Lists that are refused here.
fn written_whole() -> [Row; 2] {
    let of = |input, bound, list: Vec<u32>| {
        let paper = by_paper(bound, ON_ONE, &[&list]);
        let ours = by_library(bound, ON_ONE, &[&list]);
        let there = move |rust: &Calls| Some((rust.write)(bound, &[(ON_ONE, &list)]).bytes);
        row(input, (paper, ours), there, bytes)
    };
    [
        of("MacaqueV, Absolute(0): 1 after 1", Absolute(0.0), vec![ONE]),
        of(
            "MacaqueV, Lossless on 1: 65,537 times 1",
            Lossless,
            vec![ONE; MANY],
        ),
    ]
}

/// 11: A reading at the bound behind another.
fn at_the_bound() -> [Row; 4] {
    [
        behind_another(
            "MacaqueV, Relative(28): 18, 25",
            Relative(28.0),
            [18.0, 25.0],
        ),
        behind_another(
            "MacaqueV, Relative(15): 17, 20",
            Relative(15.0),
            [17.0, 20.0],
        ),
        behind_another(
            "MacaqueV, Relative(20): 15.2, 19",
            Relative(20.0),
            [15.2, 19.0],
        ),
        behind_another(
            "MacaqueV, Absolute(0.5): 0.1, −0.4",
            Absolute(0.5),
            [0.1, -0.4],
        ),
    ]
}

/// What was written, and what is read from it.
type Stream = (Vec<u8>, Vec<u32>);

/// Two values, the first in full, as they are written and read. The text reads its own stream and the library's as the
/// library does.
fn behind_another(input: &'static str, bound: ErrorBound, list: [f32; 2]) -> Row {
    let (opening, list) = (Opening::WithFirst, list.map(f32::to_bits));
    let paper = by_paper(bound, opening, &[&list]).map_err(Fault::from);
    let paper = paper.and_then(|bytes| {
        let mut out = vec![0; list.len()];
        macaque_v::grid(&bytes, list.len(), opening, &mut out).map(|()| (bytes, out))
    });
    let read = move |bytes: Vec<u8>| -> Result<Stream, Refusal> {
        let values = read_by_library(&bytes, list.len(), opening)?;
        Ok((bytes, values))
    };
    let ours = by_library(bound, opening, &[&list]).and_then(read);
    let here = (paper, ours.clone());
    let there = move |rust: &Calls| {
        let streams = [
            ours.clone(),
            read((rust.write)(bound, &[(opening, &list)]).bytes),
        ];
        let [ours, theirs] = streams.map(Result::ok);
        let is_alike = |(bytes, values): &Stream| {
            (rust.read)(bytes, list.len(), opening).as_ref() == Some(values)
        };
        theirs.filter(|theirs| is_alike(theirs) && ours.as_ref().is_some_and(is_alike))
    };
    row(input, here, there, |(written, read)| {
        format!("{}, read as {}", bytes(written), values(read))
    })
}

/// 9 and 10: Streams as they are read.
fn read() -> Vec<Row> {
    let mut repeats = vec![0xAA; MOST_VALUES / 4];
    repeats.push(0x80);
    let raw_one = vec![0x3F, 0x80, 0, 0];
    let on_one: [(&'static str, Vec<u8>, usize); 12] = [
        ("stream `A0`, 1 value on 1", vec![0xA0], 1),
        ("stream `80 00`, 1 value on 1", vec![0x80, 0x00], 1),
        ("stream `C8 00`, 1 value on 1", vec![0xC8, 0x00], 1),
        ("stream `00`, 0 values on 1", vec![0x00], 0),
        ("stream of 65,537 repeats on 1", repeats, MANY),
        ("stream `C0 00`, 1 value on 1", vec![0xC0, 0x00], 1),
        ("stream `FE 10`, 1 value on 1", vec![0xFE, 0x10], 1),
        (
            "stream `00 00 00 00 40`, 1 value on 1",
            vec![0, 0, 0, 0, 0x40],
            1,
        ),
        ("no bytes, 0 values on 1", vec![], 0),
        ("no bytes, 1 value on 1", vec![], 1),
        ("stream `C0`, 1 value on 1", vec![0xC0], 1),
        ("stream `00`, 1 value on 1", vec![0x00], 1),
    ];
    let with_first = [
        ("no bytes, 0 values with a first", vec![], 0),
        ("stream `3F 80 00 00`, 0 values with a first", raw_one, 0),
    ];
    let on_one = on_one.map(|(input, bytes, count)| read_one(input, bytes, count, ON_ONE));
    let of = |(input, bytes, count)| read_one(input, bytes, count, Opening::WithFirst);
    on_one.into_iter().chain(with_first.map(of)).collect()
}

/// The values of a stream; its sum must be theirs, or refused or at fault as they are.
fn read_one(input: &'static str, stream: Vec<u8>, count: usize, opening: Opening) -> Row {
    let (mut out, mut ours) = (vec![0; count], vec![0; count]);
    let drawn = macaque_v::grid(&stream, count, opening, &mut out).map(|()| out);
    let paper = with_sum(drawn, macaque_v::sum(&stream, count, opening));
    let answer = library::macaque_v::grid_bits(&stream, count, safe_opening(opening), &mut ours);
    let sum = library::macaque_v::sum_bits(&stream, count, safe_opening(opening));
    let library = with_sum(answer.map(|()| ours), sum);
    let there = move |rust: &Calls| {
        let drawn = (rust.read)(&stream, count, opening).ok_or(());
        with_sum(drawn, (rust.sum)(&stream, count, opening).ok_or(())).ok()
    };
    row(input, (paper, library), there, |said| said)
}

fn with_sum<E: PartialEq>(drawn: Result<Vec<u32>, E>, sum: Result<u32, E>) -> Result<String, E> {
    match (drawn, sum) {
        (Err(of_values), Err(of_sum)) if of_values == of_sum => Err(of_values),
        (Ok(drawn), Ok(sum)) => {
            let floats = drawn.iter().map(|&bits| f32::from_bits(bits));
            let is_theirs = bits_of_f32(floats.fold(0.0, |sum, value| sum + value)) == sum;
            let said = values(drawn);
            Ok(if is_theirs {
                said
            } else {
                format!("{said}, in sum {}", decimal(sum))
            })
        }
        _ => Ok("values or a sum, not both".to_string()),
    }
}
