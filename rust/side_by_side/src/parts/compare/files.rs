//! The files that are compared: each a head of nine bytes and a stream.

use crate::inputs::{Inputs, ONE};
use modelardb_rattle::compare::Upload;
use modelardb_rattle::{ErrorBound, MacaqueV, Opening};
use oracle::paper::MOST_VALUES;
use oracle::paper::comparing::MOST_BYTES;

const TWO: u32 = 0x4000_0000;

#[derive(Clone)]
pub struct File {
    pub name: &'static str,
    pub bytes: Vec<u8>,
}

impl File {
    pub fn new(name: &'static str, bytes: Vec<u8>) -> Self {
        Self { name, bytes }
    }

    /// The file of a stream that was written.
    fn written(name: &'static str, values: &[u32], opening: Opening, bound: ErrorBound) -> Self {
        let mut buffer = vec![0; 6 * values.len() + 4];
        let mut writer = MacaqueV::new(bound, opening).expect("an allowed bound");
        writer
            .compress_values_bits(values, &mut buffer)
            .expect("room for 45 bits a value");
        let upload = Upload {
            bytes: &buffer[..writer.bytes_used()],
            count: values.len(),
            opening,
        };
        Self::new(name, upload.to_file().expect("an allowed count"))
    }

    fn lossless(name: &'static str, values: &[u32], opening: Opening) -> Self {
        Self::written(name, values, opening, ErrorBound::Lossless)
    }

    /// The first bytes of the head are others.
    fn headed(name: &'static str, head: [u8; 9], stream: &[u8]) -> Self {
        Self::new(name, [&head[..], stream].concat())
    }
}

/// Marked case b: 1, 1, 2, 1.
pub fn whole() -> File {
    File::lossless("case b", &[ONE, ONE, TWO, ONE], Opening::First)
}

/// Files that are read: the same values in other bits, one value other, more or fewer, none; values that
/// compare as equal and have other bits.
pub fn allowed() -> Vec<File> {
    let (first, one) = (Opening::First, Opening::On(1.0));
    let other = Opening::On(-7.5);
    let odd = Opening::on_bits(0x7FC1_2345);
    vec![
        whole(),
        File::lossless("case b opened on 1", &[ONE, ONE, TWO, ONE], one),
        File::lossless("case b opened on -7.5", &[ONE, ONE, TWO, ONE], other),
        File::lossless("case b opened on a NaN", &[ONE, ONE, TWO, ONE], odd),
        File::headed(
            "an opening that is not looked at",
            [0, 1, 2, 3, 4, 1, 0, 0, 0],
            &[0x3F, 0x80, 0, 0],
        ),
        File::lossless("a value other", &[ONE, TWO, TWO, ONE], first),
        File::lossless("the first other", &[TWO, ONE, TWO, ONE], first),
        File::lossless("the last other", &[ONE, ONE, TWO, TWO], first),
        File::lossless("a value fewer", &[ONE, ONE, TWO], first),
        File::lossless("a value more", &[ONE, ONE, TWO, ONE, ONE], one),
        File::lossless("shifted", &[ONE, TWO, ONE], first),
        File::lossless("both zeros", &[0, 1 << 31], first),
        File::lossless("both zeros, turned", &[1 << 31, 0], one),
        File::lossless("NaNs", &[0x7FC0_0000, 0x7FC0_0001, 0xFFFF_FFFF], first),
        File::lossless("other NaNs", &[0x7FC0_0001, 0x7FC0_0001, 0xFFC0_0000], odd),
        File::lossless("none", &[], first),
        File::lossless("none, opened on 1", &[], one),
    ]
}

/// A file for each refusal: 5 and 3 of its head, 5 to 8 of its stream; those with 0 and 0 first.
pub fn refused() -> Vec<File> {
    let head = |mode: u8, count: u32| {
        let [a, b, c, d] = count.to_le_bytes();
        [mode, 0, 0, 0x80, 0x3F, a, b, c, d]
    };
    let long = vec![0xAA; MOST_BYTES + 1];
    vec![
        File::new("nothing", vec![]),
        File::new("a mode alone", vec![0]),
        File::new("a mode of 2 alone", vec![2]),
        File::new("eight bytes", vec![0; 8]),
        File::new("eight bytes of a mode of 255", vec![255; 8]),
        File::headed("mode 2", head(2, 1), &[0x80]),
        File::headed("mode 255", head(255, 1), &[0x80]),
        File::headed("mode 2, and a stream that ends early", head(2, 9), &[]),
        File::headed("count 65,537", head(0, 65_537), &[0x80]),
        File::headed("the highest count", head(1, u32::MAX), &[]),
        File::headed("24,577 bytes", head(1, 65_536), &long),
        File::headed("24,577 bytes and a mode of 9", head(9, 70_000), &long),
        File::headed("far too many bytes", head(0, 3), &[0xAA; 200_000]),
        File::headed("no value's bits", head(0, 1), &[]),
        File::headed("65,536 values of no bits", head(1, 65_536), &[]),
        File::headed("case j: 5", head(1, 1), &[0xC0]),
        File::headed("case f: 6", head(1, 1), &[0x00]),
        File::headed("case g: 6", head(1, 2), &[0x80]),
        File::headed("case h: 7", head(1, 1), &[0xFE, 0x10]),
        File::headed("case i: 7", head(1, 1), &[0xC0, 0x00]),
        File::headed("case k: 8", head(1, 1), &[0xA0]),
        File::headed("case l: 8", head(1, 1), &[0x80, 0x00]),
        File::headed("count 0 and a byte", head(0, 0), &[0]),
    ]
}

/// So many values that alternate: 32 bits, 18, and then 6 for each.
fn alternating(count: usize) -> Vec<u32> {
    let turn = [ONE, ONE ^ 0x0004_4000];
    (0..count).map(|i| turn[i % 2]).collect()
}

/// Pairs at the limits: 24,576 bytes of stream and 24,577, and 65,536 values.
pub fn limits() -> Vec<[File; 2]> {
    let first = Opening::First;
    let full = File::lossless("24,576 bytes", &alternating(32_761), first);
    let over = File::lossless("24,577 bytes of a stream", &alternating(32_762), first);
    assert_eq!(full.bytes.len(), 9 + MOST_BYTES);
    assert_eq!(over.bytes.len(), 9 + MOST_BYTES + 1);
    let mut values = vec![ONE; MOST_VALUES];
    let most = File::lossless("65,536 values", &values, first);
    let on = File::lossless("65,536 values on 1", &values, Opening::On(1.0));
    values[MOST_VALUES - 1] = TWO;
    let other = File::lossless("65,536 values, the last other", &values, first);
    values.truncate(MOST_VALUES - 1);
    let fewer = File::lossless("65,535 values", &values, first);
    values.fill(TWO);
    let apart = File::lossless("65,535 other values", &values, first);
    let none = File::lossless("none", &[], first);
    let pair = |left: &File, right: &File| [left.clone(), right.clone()];
    vec![
        pair(&full, &full),
        pair(&full, &over),
        pair(&over, &over),
        pair(&full, &none),
        pair(&most, &on),
        pair(&most, &other),
        pair(&most, &fewer),
        pair(&most, &apart),
        pair(&most, &none),
        pair(&most, &full),
    ]
}

/// Two files of up to 40 values: the second has the same values, or some of them others, more or fewer,
/// another opening or another bound.
pub fn drawn(inputs: &mut Inputs) -> [File; 2] {
    let count = inputs.below(40) as usize;
    let mut values = inputs.values(count);
    let (opening, bound) = (opening(inputs), bound(inputs));
    let left = File::written("drawn", &values, opening, bound);
    match inputs.below(6) {
        0 => _ = values.pop(),
        1 => values.push(inputs.value()),
        2 if count > 0 => _ = values.remove(inputs.below(count as u64) as usize),
        3 if count > 0 => values[inputs.below(count as u64) as usize] = inputs.value(),
        4 => values.iter_mut().for_each(|value| *value ^= 1 << 31),
        _ => {}
    }
    let right = match inputs.below(3) {
        0 => File::written("drawn beside it", &values, opening, bound),
        1 => File::written(
            "drawn, opened elsewhere",
            &values,
            self::opening(inputs),
            bound,
        ),
        _ => File::written(
            "drawn, bound otherwise",
            &values,
            opening,
            self::bound(inputs),
        ),
    };
    [left, right]
}

fn opening(inputs: &mut Inputs) -> Opening {
    if inputs.flip() {
        Opening::First
    } else {
        Opening::on_bits(inputs.value())
    }
}

fn bound(inputs: &mut Inputs) -> ErrorBound {
    inputs.pick(&[
        ErrorBound::Lossless,
        ErrorBound::Lossless,
        ErrorBound::Absolute(0.5),
        ErrorBound::Relative(5.0),
    ])
}

/// Streams far longer than the program takes: 65,536 values that share nothing, against others.
pub fn longest(inputs: &mut Inputs) -> Vec<[File; 2]> {
    let mut values: Vec<u32> = (0..MOST_VALUES).map(|_| inputs.word() as u32).collect();
    let left = File::lossless("65,536 of any bits", &values, Opening::First);
    let same = File::lossless("the same on 1", &values, Opening::On(1.0));
    values[40_000] ^= 1;
    values.truncate(65_000);
    let other = File::lossless("536 fewer and one other", &values, Opening::First);
    let none = File::lossless("none", &[], Opening::First);
    vec![
        [left.clone(), same.clone()],
        [left.clone(), other.clone()],
        [other, same],
        [none, left],
    ]
}
