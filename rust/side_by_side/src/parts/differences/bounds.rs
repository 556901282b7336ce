//! The rows about bounds.

use super::said::{Row, row};
use crate::face::safe_bound;
use modelardb_rattle as library;
use oracle::paper::models::ErrorBound::{self, Absolute, Relative};
use oracle::paper::models::{is_value_within_error_bound, maximum_allowed_deviation};

/// The bits of an f64.
const WIDE_ONE: u64 = 0x3FF0_0000_0000_0000;

pub fn rows() -> Vec<Row> {
    vec![
        deviation("deviation of 1 under Absolute(1)", Absolute(1.0)),
        deviation("deviation of 1 under Relative(100)", Relative(100.0)),
        deviation("deviation of 1 under Absolute(0)", Absolute(0.0)),
        within("is 1 within Absolute(0) of 1", Absolute(0.0), [1.0, 1.0]),
        within(
            "is 1 within Relative(101) of 1",
            Relative(101.0),
            [1.0, 1.0],
        ),
        // 11: Pairs at the bound.
        within(
            "is 1 within Absolute(16777216) of −16777216",
            Absolute(16_777_216.0),
            [1.0, -16_777_216.0],
        ),
        within(
            "is 0.1 within Absolute(0.4) of −0.3",
            Absolute(0.4),
            [0.1, -0.3],
        ),
        within(
            "is 25 within Relative(28) of 18",
            Relative(28.0),
            [25.0, 18.0],
        ),
        within(
            "is 19 within Relative(20) of 15.2",
            Relative(20.0),
            [19.0, 15.2],
        ),
        within(
            "is 20 within Relative(15) of 17",
            Relative(15.0),
            [20.0, 17.0],
        ),
    ]
}

fn deviation(input: &'static str, bound: ErrorBound) -> Row {
    let paper = maximum_allowed_deviation(bound, WIDE_ONE);
    let library = library::maximum_allowed_deviation_bits(safe_bound(bound), WIDE_ONE);
    row(
        input,
        (paper, library),
        move |rust| Some((rust.deviation)(bound, WIDE_ONE)),
        |bits| format!("{}", f64::from_bits(bits)),
    )
}

/// Whether the first value is within the bound of the second.
fn within(input: &'static str, bound: ErrorBound, values: [f32; 2]) -> Row {
    let [real, other] = values.map(f32::to_bits);
    let paper = is_value_within_error_bound(bound, real, other);
    let library = library::is_value_within_error_bound_bits(safe_bound(bound), real, other);
    row(
        input,
        (paper, library),
        move |rust| Some((rust.within)(bound, real, other)),
        |is_within| if is_within { "yes" } else { "no" }.to_string(),
    )
}
