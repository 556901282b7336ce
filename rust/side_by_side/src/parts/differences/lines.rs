//! The rows about what a model draws and adds up.

use super::said::{Row, decimal, row, values};
use crate::face::numbered;
use crate::inputs::{INFINITY, ONE, TWO};
use modelardb_rattle as library;
use oracle::paper::swing::{self, Line};
use oracle::paper::{Answer, MOST_VALUES, pmc_mean};
use oracle::rust::Calls;

const MANY: usize = MOST_VALUES + 1;

pub fn rows() -> Vec<Row> {
    let mut rows = drawn();
    rows.extend(summed());
    rows.extend(of_pmc_mean());
    rows
}

/// 6 and 9: Lines that are drawn there.
fn drawn() -> Vec<Row> {
    let many: Vec<i64> = (0..MANY as i64).collect();
    let rows = [
        (
            "line 1 at 0 to 2 at 10, drawn at 5, 5",
            line((0, ONE), (10, TWO)),
            vec![5, 5],
        ),
        (
            "line 1 at 10 to 2 at 0, drawn at 5",
            line((10, ONE), (0, TWO)),
            vec![5],
        ),
        (
            "line 1 at 5 to 2 at 5, drawn at 5",
            line((5, ONE), (5, TWO)),
            vec![5],
        ),
        (
            "line 1 at 0 to infinity at 10, drawn at 0, 10",
            line((0, ONE), (10, INFINITY)),
            vec![0, 10],
        ),
        (
            "line 1 at 0 to 1 at 65,536, drawn at all 65,537 times",
            flat(),
            many,
        ),
    ];
    rows.map(|(input, line, times)| grid(input, line, times))
        .into()
}

/// 8 and 9: Lines that are summed.
fn summed() -> Vec<Row> {
    let many: Vec<i64> = (0..MANY as i64).collect();
    let falling = line((0, 1.1f32.to_bits()), (3, 0.8f32.to_bits()));
    let rising = line((0, ONE), (30, 4f32.to_bits()));
    let rows = [
        (
            "line 1 at 0 to 4 at 30, summed over 0, 10, 30",
            rising,
            vec![0, 10, 30],
        ),
        (
            "line 1.1 at 0 to 0.8 at 3, summed over 0, 1, 2, 3",
            falling,
            vec![0, 1, 2, 3],
        ),
        (
            "line 1 at 10 to 2 at 0, summed over 0, 10",
            line((10, ONE), (0, TWO)),
            vec![0, 10],
        ),
        (
            "line 1 at 0 to 1 at 65,536, summed over all 65,537 times",
            flat(),
            many,
        ),
    ];
    rows.map(|(input, line, times)| sum(input, line, times))
        .into()
}

/// A line over more times than a call takes.
fn flat() -> Line {
    line((0, ONE), (MOST_VALUES as i64, ONE))
}

fn line((start_time, first_value): (i64, u32), (end_time, last_value): (i64, u32)) -> Line {
    Line {
        start_time,
        end_time,
        first_value,
        last_value,
    }
}

/// The line as the library takes it.
fn of_library(line: Line) -> library::Line {
    library::Line {
        start_time: line.start_time,
        end_time: line.end_time,
        first_value: f32::from_bits(line.first_value),
        last_value: f32::from_bits(line.last_value),
    }
}

fn grid(input: &'static str, line: Line, times: Vec<i64>) -> Row {
    let (mut out, mut ours) = (vec![0; times.len()], vec![0; times.len()]);
    let paper = swing::grid(line, &times, &mut out).map(|()| out);
    let answer = library::swing::grid_bits(of_library(line), &times, &mut ours);
    let there = move |rust: &Calls| Some((rust.swing_grid)(line, &times));
    row(input, (paper, answer.map(|()| ours)), there, values)
}

/// Here a caller asks for one of two forms; there the times decide.
fn sum(input: &'static str, line: Line, times: Vec<i64>) -> Row {
    let average = swing::sum_by_average(line, times.len());
    let paper = both_forms(average, swing::sum_over(line, &times));
    let ours = of_library(line);
    let average = library::swing::sum_by_average_bits(ours, times.len());
    let over = library::swing::sum_over_bits(ours, &times);
    let number = both_forms(numbered(average), numbered(over));
    let library =
        number.map_err(|number| library::Refusal::from_fault(number.into()).expect("a refusal"));
    let there = move |rust: &Calls| Some(decimal((rust.swing_sum)(line, &times)));
    row(input, (paper, library), there, |said| said)
}

/// Both sums, or the refusal that both give.
fn both_forms(average: Answer<u32>, over: Answer<u32>) -> Answer<String> {
    match (average, over) {
        (Ok(average), Ok(over)) => {
            let (average, over) = (decimal(average), decimal(over));
            Ok(format!("{average} by average, {over} over the times"))
        }
        (Err(first), Err(second)) if first == second => Err(first),
        _ => Ok(format!("{average:?} by average, {over:?} over the times")),
    }
}

/// 9: PMC-Mean's.
fn of_pmc_mean() -> [Row; 2] {
    let (mut out, mut ours) = (vec![0; MANY], vec![0; MANY]);
    let paper = pmc_mean::grid(ONE, MANY, &mut out).map(|()| out);
    let answer = library::pmc_mean::grid_bits(ONE, MANY, &mut ours);
    let drawn = row(
        "PMC-Mean 1, drawn 65,537 times",
        (paper, answer.map(|()| ours)),
        |rust| Some((rust.pmc_grid)(ONE, MANY)),
        values,
    );
    let summed = row(
        "PMC-Mean 1, summed 65,537 times",
        (
            pmc_mean::sum(MANY, ONE),
            library::pmc_mean::sum_bits(MANY, ONE),
        ),
        |rust| Some((rust.pmc_sum)(MANY, ONE)),
        decimal,
    );
    [drawn, summed]
}
