//! Two values of which one is within the bound of the other by one of the tests alone.

use super::Alone::{self, InF32, InF64};
use super::{alone, number, shown};
use oracle::paper::models::ErrorBound::{self, Absolute, Relative};
use oracle::paper::models::within;
use std::ops::RangeInclusive;

/// A kind of bound, the number of decimals of all three numbers, and the sizes of the greatest, in its last decimal.
type Search = (fn(f32) -> ErrorBound, i32, RangeInclusive<i32>, Alone);

/// Whole numbers under an absolute bound part from 2^24 on: distances up to there are exact in f32.
const EXACT: i32 = 1 << 24;

const SEARCHES: [Search; 9] = [
    (Absolute, 0, EXACT..=EXACT, InF32),
    (Absolute, 1, 1..=200, InF32),
    (Absolute, 1, 1..=200, InF64),
    (Absolute, 2, 1..=200, InF32),
    (Absolute, 2, 1..=200, InF64),
    (Relative, 0, 1..=200, InF32),
    (Relative, 0, 1..=200, InF64),
    (Relative, 1, 1..=200, InF32),
    (Relative, 1, 1..=200, InF64),
];

pub fn print() {
    println!("a value within the bound of another, by the test");
    for ((kind, decimals, sizes, wanted), found) in SEARCHES.into_iter().zip(found()) {
        let most = number(*sizes.end(), decimals);
        let found = found.unwrap_or_else(|| format!("none up to {most}"));
        let decimals = ["whole", "one decimal", "two decimals"][decimals as usize];
        let kind = match kind(1.0) {
            Absolute(_) => "absolute",
            _ => "relative",
        };
        println!("  {wanted}, {kind}, {decimals}: {found}");
    }
    println!();
}

/// What is found by each search.
pub fn found() -> impl Iterator<Item = Option<String>> {
    let search = |(kind, decimals, sizes, wanted)| smallest(kind, decimals, sizes, wanted);
    SEARCHES.into_iter().map(search)
}

/// The smallest pair that the wanted test alone lets through.
fn smallest(
    kind: fn(f32) -> ErrorBound,
    decimals: i32,
    mut sizes: RangeInclusive<i32>,
    wanted: Alone,
) -> Option<String> {
    let tried = |real: i32, other: i32, bound: i32| {
        let [real, other, bound] = [real, other, bound].map(|digits| number(digits, decimals));
        let bound = kind(bound);
        let is_found = bound.is_allowed() && alone(|| within(bound, real, other)) == Some(wanted);
        is_found.then(|| format!("{real} of {other} at {}", shown(bound)))
    };
    sizes.find_map(|size| {
        let least = if size == EXACT { size } else { 1 };
        (least..=size).find_map(|bound| {
            let of =
                |real: i32| others(size, bound, real).find_map(|other| tried(real, other, bound));
            signed(0..=size).find_map(of)
        })
    })
}

/// What may stand for a value where the greatest of the three numbers has this size; of whole numbers, what is far enough.
fn others(size: i32, bound: i32, real: i32) -> Box<dyn Iterator<Item = i32>> {
    if size == EXACT {
        Box::new(signed(size - real.abs()..=size))
    } else if bound == size || real.abs() == size {
        Box::new(signed(0..=size))
    } else {
        Box::new(signed(size..=size))
    }
}

/// Each number, the positive one first.
fn signed(sizes: RangeInclusive<i32>) -> impl Iterator<Item = i32> {
    sizes.flat_map(|digits| [digits, -digits])
}
