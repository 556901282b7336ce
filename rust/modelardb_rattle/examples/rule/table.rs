//! The table of docs/THE-RULE.md: short runs, how far each model gets, what it costs, which is chosen.

use modelardb_rattle::ErrorBound::{self, Absolute, Lossless, Relative};
use modelardb_rattle::{ModelBuilder, PMCMean, Refusal, SelectedModel, Swing, choose_model};
use std::cmp::Ordering;

/// Values at the minutes 0, 5, 10 and so on, a bound and a metadata size.
type Run = (&'static [f32], ErrorBound, usize);

const NAN: f32 = f32::NAN;
const MAX: f32 = f32::MAX;
const INFINITY: f32 = f32::INFINITY;

/// 0, 1, 2 and so on to 2947.
const WHOLE: [f32; 2948] = {
    let mut all = [0.0; 2948];
    let mut at = 0;
    while at < all.len() {
        all[at] = at as f32;
        at += 1;
    }
    all
};

const RUNS: [Run; 20] = [
    (&[20.0], Absolute(0.5), 12),
    (&[20.5, 20.75, 20.25], Absolute(0.5), 12),
    (&[20.0, 21.0, 22.0], Absolute(0.5), 12),
    (&[20.0, 21.0, 22.0], Absolute(0.5), 3),
    (&[20.0, 21.0, 22.0], Absolute(0.5), 2),
    (&WHOLE, Absolute(1473.0), 2948),
    (&[20.0, 21.0, 22.0], Lossless, 12),
    (&[20.0, 20.0, 21.0], Lossless, 12),
    (&[20.0, 25.0, 18.0], Lossless, 12),
    (&[20.0, 20.75, 20.5, 20.125], Absolute(0.5), 12),
    (&[0.0, 5.0], Absolute(1.0), 12),
    (&[20.0, 20.2, 20.1], Absolute(0.1), 12),
    (&[100.0, 106.0, 112.0], Relative(5.0), 12),
    (&[100.0, 106.0, 106.0], Relative(10.0), 12),
    (&[20.0, 26.0], Relative(15.0), 12),
    (&[100.0, 114.0], Relative(7.0), 12),
    (&[1.0, NAN, 1.0], Lossless, 12),
    (&[NAN, NAN, 20.0], Absolute(0.5), 12),
    (&[INFINITY, INFINITY], Lossless, 12),
    (&[-MAX, MAX], Absolute(3e38), 2),
];

const HEAD: &str = "\
| values | bound | M | PMC-Mean stands for | at a cost of | Swing stands for | at a cost of | compared | chosen | it keeps | why |
|---|---|---|---|---|---|---|---|---|---|---|
";

/// The table, by the proved library.
pub fn table() -> Result<String, Refusal> {
    let rows: Result<Vec<String>, Refusal> = RUNS.into_iter().map(row).collect();
    Ok(HEAD.to_string() + &rows?.concat())
}

fn row((values, error_bound, m): Run) -> Result<String, Refusal> {
    let (pmc_mean, swing) = fitted(values, error_bound)?;
    let times: Vec<i64> = (0..values.len() as i64).map(|at| 5 * at).collect();
    let chosen = choose_model(&times, values, error_bound, m)?;
    let (cost, other_cost) = (pmc_mean.bytes_per_value(m)?, swing.bytes_per_value(m)?);
    let products = products(m, pmc_mean.len(), swing.len());
    Ok(format!(
        "| {} | {} | {m} | {} | {cost} | {} | {other_cost} | {} | {} | {} | {} |\n",
        shown(values),
        bound(error_bound),
        pmc_mean.len(),
        swing.len(),
        compared(products),
        name(&chosen),
        kept(&chosen),
        why(&chosen, products),
    ))
}

/// The values; of many the first three and the last.
fn shown(values: &[f32]) -> String {
    let all: Vec<String> = values.iter().copied().map(number).collect();
    match &all[..] {
        [one, two, three, .., last] if all.len() > 8 => format!("{one}, {two}, {three}, .. {last}"),
        few => few.join(", "),
    }
}

/// Each model by itself, up to its first failure.
fn fitted(values: &[f32], error_bound: ErrorBound) -> Result<(PMCMean, Swing), Refusal> {
    let (mut pmc_mean, mut swing) = (PMCMean::new(error_bound)?, Swing::new(error_bound)?);
    for &value in values {
        if !pmc_mean.fit_value(value)? {
            break;
        }
    }
    for (at, &value) in values.iter().enumerate() {
        if !swing.fit_data_point(5 * at as i64, value)? {
            break;
        }
    }
    Ok((pmc_mean, swing))
}

fn is_swing(chosen: &SelectedModel) -> bool {
    chosen.model_type_id() == ModelBuilder::SWING_ID
}

pub fn name(chosen: &SelectedModel) -> &'static str {
    if is_swing(chosen) {
        "Swing"
    } else {
        "PMC-Mean"
    }
}

/// What is compared: M + 1 times as many readings as PMC-Mean stands for, and M times as many as Swing does.
pub fn products(m: usize, pmc_mean: usize, swing: usize) -> [usize; 2] {
    [(m + 1) * pmc_mean, m * swing]
}

fn compared([left, right]: [usize; 2]) -> String {
    let sign = match left.cmp(&right) {
        Ordering::Less => "<",
        Ordering::Equal => "=",
        Ordering::Greater => ">",
    };
    format!("{left} {sign} {right}")
}

/// Why it was chosen, by the products.
pub fn why(chosen: &SelectedModel, [left, right]: [usize; 2]) -> &'static str {
    match left.cmp(&right) {
        Ordering::Less if !is_swing(chosen) => "Swing's line ends at no finite value",
        Ordering::Equal => "a tie",
        _ => "it costs less",
    }
}

/// What the chosen model keeps of its values.
pub fn kept(chosen: &SelectedModel) -> String {
    let (first, last) = (number(chosen.first_value()), number(chosen.last_value()));
    if is_swing(chosen) {
        format!("{first} to {last}")
    } else {
        first
    }
}

/// A value; the two that are too long to write out by their names.
fn number(value: f32) -> String {
    if value.abs() == MAX {
        return if value > 0.0 { "MAX" } else { "−MAX" }.to_string();
    }
    value
        .to_string()
        .replace('-', "−")
        .replace("inf", "infinity")
}

pub fn bound(error_bound: ErrorBound) -> String {
    match error_bound {
        Lossless => "lossless".to_string(),
        Absolute(bound) if bound > 1e9 => format!("{bound:e}"),
        Absolute(bound) => bound.to_string(),
        Relative(bound) => format!("{bound}%"),
    }
}
