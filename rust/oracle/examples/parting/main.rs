//! Where the within test in f64 and the one in f32 part: the smallest inputs, found by trying all of a kind, and how often
//! they part on the readings that rust/bench times. docs/DIFFERENCES.md lists what this prints in its group 11.
//!
//! The smallest is that of which the greatest number, the bound or a value with its sign aside, is smallest; then the one
//! with the smallest bound; then that with the smallest values from the left, the positive one of two before the other.

mod days;
mod lists;
pub mod pairs;

use oracle::paper::models::ErrorBound;
use oracle::paper::rules;
use std::fmt::{Display, Formatter};

fn main() {
    pairs::print();
    lists::print();
    days::print();
}

/// Which test alone lets a value through.
#[derive(Clone, Copy, PartialEq)]
enum Alone {
    InF32,
    InF64,
}

impl Display for Alone {
    fn fmt(&self, f: &mut Formatter) -> std::fmt::Result {
        f.write_str(match self {
            Alone::InF32 => "in f32 alone",
            Alone::InF64 => "in f64 alone",
        })
    }
}

/// What today's rules answer, in f64, and what the first ones do, in f32.
fn both<A>(ask: impl Fn() -> A) -> (A, A) {
    (ask(), rules::as_first(&ask))
}

/// Which test alone says yes.
fn alone(is_let_through: impl Fn() -> bool) -> Option<Alone> {
    match both(is_let_through) {
        (true, false) => Some(Alone::InF64),
        (false, true) => Some(Alone::InF32),
        _ => None,
    }
}

/// A whole number, or one of tenths or hundredths, by the number of decimals: the f32 that is nearest, since it is the
/// quotient of two that are exact.
fn number(digits: i32, decimals: i32) -> f32 {
    digits as f32 / 10f32.powi(decimals)
}

fn shown(bound: ErrorBound) -> String {
    match bound {
        ErrorBound::Lossless => "lossless".to_string(),
        ErrorBound::Absolute(bound) => format!("{bound}"),
        ErrorBound::Relative(bound) => format!("{bound} %"),
    }
}
