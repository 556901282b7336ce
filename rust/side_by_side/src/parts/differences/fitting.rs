//! The rows about PMC-Mean and Swing.

use super::said::{Row, decimal, ends, fits, row};
use crate::face::safe_bound;
use crate::inputs::{ONE, TWO};
use modelardb_rattle::{self as library, ErrorBound as Bound, Refusal};
use oracle::paper::models::ErrorBound::{self, Absolute, Lossless, Relative};
use oracle::paper::pmc_mean::PMCMean;
use oracle::paper::swing::Swing;
use oracle::paper::{Answer, MOST_VALUES};
use oracle::rust::Calls;

pub const ALLOWED: &str = "an allowed step";

pub fn rows() -> Vec<Row> {
    let mut rows = vec![line_of_two(), minimum_of_zeros()];
    rows.extend(two_points());
    rows.push(ends_of_i64());
    rows.extend(full_states());
    rows.extend(fresh_models());
    rows.extend(under_no_bound());
    rows.extend(at_the_bound());
    rows
}

/// A fresh state under any bound, allowed or not.
pub fn pmc_mean_under(error_bound: ErrorBound) -> PMCMean {
    let fresh = PMCMean::new(Lossless).expect("an allowed bound");
    PMCMean {
        error_bound,
        ..fresh
    }
}

pub fn swing_under(error_bound: ErrorBound) -> Swing {
    let fresh = Swing::new(Lossless).expect("an allowed bound");
    Swing {
        error_bound,
        ..fresh
    }
}

/// 1: The deviation of a line of two points.
fn line_of_two() -> Row {
    let (bound, points) = (Absolute(1.0), [(0, 0), (10, 5f32.to_bits())]);
    let mut paper = swing_under(bound);
    let mut ours = library::Swing::new(safe_bound(bound)).expect(ALLOWED);
    for (time, value) in points {
        (_, paper) = paper.fit_data_point(time, value).expect(ALLOWED);
        ours.fit_data_point_bits(time, value).expect(ALLOWED);
    }
    let there = move |rust: &Calls| {
        let step = |state, (time, value)| (rust.swing_step)(state, time, value).1;
        Some((rust.swing_model)(
            points.into_iter().fold(swing_under(bound), step),
        ))
    };
    let here = (paper.model(), ours.model_bits());
    row("Swing, Absolute(1): 0 at 0, 5 at 10", here, there, ends)
}

/// 7: Which of two zeros is the least.
fn minimum_of_zeros() -> Row {
    let zeros = [0, 1 << 31];
    let mut paper = pmc_mean_under(Lossless);
    let mut ours = library::PMCMean::new(Bound::Lossless).expect(ALLOWED);
    for value in zeros {
        (_, paper) = paper.fit_value(value).expect(ALLOWED);
        ours.fit_value_bits(value).expect(ALLOWED);
    }
    let there = move |rust: &Calls| {
        let step = |state, value| (rust.pmc_step)(state, value).1;
        let state = zeros.into_iter().fold(pmc_mean_under(Lossless), step);
        Some(state.min_value.to_bits())
    };
    let least: Answer<u32> = Ok(paper.min_value.to_bits());
    let here = (least, Ok(ours.min_value().to_bits()));
    row(
        "PMC-Mean, Lossless: 0, then −0: the least",
        here,
        there,
        decimal,
    )
}

/// 11: Readings at the bound.
fn at_the_bound() -> [Row; 3] {
    [
        taken(
            "PMC-Mean, Relative(14): 25, 32",
            Relative(14.0),
            [25.0, 32.0],
        ),
        taken(
            "PMC-Mean, Relative(15): 10, 13",
            Relative(15.0),
            [10.0, 13.0],
        ),
        taken(
            "PMC-Mean, Absolute(0.5): 0.4, −0.6",
            Absolute(0.5),
            [0.4, -0.6],
        ),
    ]
}

/// How many of two values PMC-Mean takes, and their average.
fn taken(input: &'static str, bound: ErrorBound, values: [f32; 2]) -> Row {
    let values = values.map(f32::to_bits);
    let over = move |step: &dyn Fn(PMCMean, u32) -> (bool, PMCMean)| {
        let (_, one) = step(pmc_mean_under(bound), values[0]);
        step(one, values[1]).1
    };
    let paper = over(&|state, value| state.fit_value(value).expect(ALLOWED));
    let mut ours = library::PMCMean::new(safe_bound(bound)).expect(ALLOWED);
    for value in values {
        ours.fit_value_bits(value).expect(ALLOWED);
    }
    let here = (
        paper.model().map(|average| (paper.length, average)),
        ours.model_bits().map(|average| (ours.len(), average)),
    );
    let there = move |rust: &Calls| {
        let state = over(&rust.pmc_step);
        Some((state.length, (rust.pmc_model)(state)))
    };
    row(input, here, there, |(length, average)| {
        format!("takes {length}, as {}", decimal(average))
    })
}

/// 9: A second point at a time that is not allowed.
fn two_points() -> Vec<Row> {
    let rows = [
        ("Swing: 2 at 5 after 1 at 5", 5),
        ("Swing: 2 at 2^52 + 1 after 1 at 5", (1 << 52) + 1),
    ];
    let (_, one) = swing_under(Lossless).fit_data_point(5, ONE).expect(ALLOWED);
    let of = |(input, second)| {
        let paper = one.fit_data_point(second, TWO).map(|(fits, _)| fits);
        let mut ours = library::Swing::new(Bound::Lossless).expect(ALLOWED);
        ours.fit_data_point(5, 1.0).expect(ALLOWED);
        let here = (paper, ours.fit_data_point(second, 2.0));
        let there = move |rust: &Calls| Some((rust.swing_step)(one, second, TWO).0);
        row(input, here, there, fits)
    };
    rows.map(of).into()
}

/// 10: The difference of these times does not fit an i64.
fn ends_of_i64() -> Row {
    let paper = swing_under(Lossless)
        .fit_data_point(i64::MIN, ONE)
        .map(|_| 0.0);
    let mut ours = library::Swing::new(Bound::Lossless).expect(ALLOWED);
    let ours = ours.fit_data_point(i64::MIN, 1.0).map(|_| 0.0);
    let there = |rust: &Calls| {
        let (_, first) = (rust.swing_step)(swing_under(Lossless), i64::MIN, ONE);
        Some((rust.swing_step)(first, i64::MAX, TWO).1.upper_bound_slope)
    };
    let input = "Swing: 1 at the least i64, 2 at the greatest";
    row(input, (paper, ours), there, |slope: f64| {
        format!("slope {slope}")
    })
}

/// 9: A model of 65,536 values takes more there.
fn full_states() -> Vec<Row> {
    let (mut pmc_mean, mut swing) = (pmc_mean_under(Lossless), swing_under(Lossless));
    let mut our_pmc_mean = library::PMCMean::new(Bound::Lossless).expect(ALLOWED);
    let mut our_swing = library::Swing::new(Bound::Lossless).expect(ALLOWED);
    let next = MOST_VALUES as i64;
    for time in 0..next {
        (_, pmc_mean) = pmc_mean.fit_value(ONE).expect(ALLOWED);
        (_, swing) = swing.fit_data_point(time, ONE).expect(ALLOWED);
        our_pmc_mean.fit_value(1.0).expect(ALLOWED);
        our_swing.fit_data_point(time, 1.0).expect(ALLOWED);
    }
    let paper = pmc_mean.fit_value(ONE).map(|(fits, _)| fits);
    let here = (paper, our_pmc_mean.fit_value(1.0));
    let there = move |rust: &Calls| Some((rust.pmc_step)(pmc_mean, ONE).0);
    let of_pmc_mean = row("PMC-Mean: value number 65,537", here, there, fits);
    let paper = swing.fit_data_point(next, ONE).map(|(fits, _)| fits);
    let here = (paper, our_swing.fit_data_point(next, 1.0));
    let there = move |rust: &Calls| Some((rust.swing_step)(swing, next, ONE).0);
    vec![
        of_pmc_mean,
        row("Swing: point number 65,537", here, there, fits),
    ]
}

/// 9: A model of no value is asked for its model and its cost.
fn fresh_models() -> Vec<Row> {
    let (pmc_mean, swing) = (pmc_mean_under(Lossless), swing_under(Lossless));
    let our_pmc_mean = library::PMCMean::new(Bound::Lossless).expect(ALLOWED);
    let our_swing = library::Swing::new(Bound::Lossless).expect(ALLOWED);
    let cost = |ours: Result<f32, Refusal>| ours.map(f32::to_bits);
    vec![
        row(
            "the model of a fresh PMC-Mean",
            (pmc_mean.model(), our_pmc_mean.model_bits()),
            move |rust| Some((rust.pmc_model)(pmc_mean)),
            decimal,
        ),
        row(
            "the cost of a fresh PMC-Mean, M 1",
            (
                pmc_mean.bytes_per_value(1),
                cost(our_pmc_mean.bytes_per_value(1)),
            ),
            move |rust| Some((rust.pmc_cost)(pmc_mean, 1)),
            decimal,
        ),
        row(
            "the model of a fresh Swing",
            (swing.model(), our_swing.model_bits()),
            move |rust| Some((rust.swing_model)(swing)),
            ends,
        ),
        row(
            "the cost of a fresh Swing, M 1",
            (swing.bytes_per_value(1), cost(our_swing.bytes_per_value(1))),
            move |rust| Some((rust.swing_cost)(swing, 1)),
            decimal,
        ),
    ]
}

/// 9: A model under a bound that is not allowed.
fn under_no_bound() -> Vec<Row> {
    let (pmc_mean, swing) = (pmc_mean_under(Absolute(0.0)), swing_under(Absolute(0.0)));
    let our_pmc_mean = library::PMCMean::new(Bound::Absolute(0.0));
    let our_swing = library::Swing::new(Bound::Absolute(0.0));
    vec![
        row(
            "PMC-Mean, Absolute(0): 1",
            (
                pmc_mean.fit_value(ONE).map(|(fits, _)| fits),
                our_pmc_mean.and_then(|mut ours| ours.fit_value(1.0)),
            ),
            move |rust| Some((rust.pmc_step)(pmc_mean, ONE).0),
            fits,
        ),
        row(
            "Swing, Absolute(0): 1 at 0",
            (
                swing.fit_data_point(0, ONE).map(|(fits, _)| fits),
                our_swing.and_then(|mut ours| ours.fit_data_point(0, 1.0)),
            ),
            move |rust| Some((rust.swing_step)(swing, 0, ONE).0),
            fits,
        ),
    ]
}
