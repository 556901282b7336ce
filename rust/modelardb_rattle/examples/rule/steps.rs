//! The rule reading by reading: what each model does with it, and the choice in the end.

use crate::readings::Readings;
use crate::table::{bound, kept, name, products, why};
use modelardb_rattle::{
    ErrorBound, PMCMean, Refusal, Swing, choose_model, is_value_within_error_bound,
};
use std::cmp::Ordering;

/// What is said of the readings.
pub fn steps(readings: &Readings, error_bound: ErrorBound, m: usize) -> Result<String, Refusal> {
    let (names, minutes, values) = (&readings.names, &readings.times, &readings.values);
    let mut text = format!("bound {}, M {m}\n", bound(error_bound));
    let (mut average, mut line) = (Average::new(error_bound)?, Swing::new(error_bound)?);
    let (mut average_fits, mut line_fits) = (true, true);
    for ((name, &minute), &value) in names.iter().zip(minutes).zip(values) {
        text += &format!("{name}  {value}\n");
        let mut why;
        if average_fits {
            (average_fits, why) = average.tried(value)?;
            text += &format!("  PMC-Mean: {why}\n");
        }
        if line_fits {
            (line_fits, why) = tried(&mut line, minute, value)?;
            text += &format!("  Swing: {why}\n");
        }
        if !average_fits && !line_fits {
            text += "  Both models have stopped.\n";
            break;
        }
    }
    let chosen = choose_model(minutes, values, error_bound, m)?;
    let (length, other_length) = (average.fitted.len(), line.len());
    let cost = average.fitted.bytes_per_value(m)?;
    let other_cost = line.bytes_per_value(m)?;
    text += &format!("PMC-Mean: {m} / {length} = {cost} bytes a reading\n");
    text += &format!("Swing: ({m} + 1) / {other_length} = {other_cost} bytes a reading\n");
    text += &compared(m, length, other_length);
    let (name, kept) = (name(&chosen), kept(&chosen));
    let why = why(&chosen, products(m, length, other_length));
    let length = chosen.length();
    text += &format!("chosen: {name} for {length}, which keeps {kept}: {why}\n");
    Ok(text)
}

/// The whole numbers that decide.
fn compared(m: usize, length: usize, other_length: usize) -> String {
    let [left, right] = products(m, length, other_length);
    let than = match left.cmp(&right) {
        Ordering::Less => "is less than",
        Ordering::Equal => "equals",
        Ordering::Greater => "is not less than",
    };
    let more = m + 1;
    format!("compared: {more} × {length} = {left} {than} {m} × {other_length} = {right}\n")
}

/// PMC-Mean, and beside it a model of the same values that takes any finite one, to show an average
/// that is too far off.
struct Average {
    fitted: PMCMean,
    loose: PMCMean,
}

impl Average {
    fn new(error_bound: ErrorBound) -> Result<Self, Refusal> {
        Ok(Self {
            fitted: PMCMean::new(error_bound)?,
            loose: PMCMean::new(ErrorBound::Absolute(f32::MAX))?,
        })
    }

    /// Whether the value fits, and why.
    fn tried(&mut self, value: f32) -> Result<(bool, String), Refusal> {
        let fits = self.fitted.fit_value(value)?;
        if !self.loose.fit_value(value)? {
            return Ok((fits, "takes no such value, stops".to_string()));
        }
        let (least, greatest) = (self.loose.min_value(), self.loose.max_value());
        let average = self.loose.model()?;
        let error_bound = self.fitted.error_bound();
        let is_least_within = is_value_within_error_bound(error_bound, least, average)?;
        let far = if is_least_within { greatest } else { least };
        let why = if fits {
            format!("average {average}, from {least} to {greatest}: fits")
        } else {
            let away = away(error_bound, far, average);
            format!("average {average} is {away}: does not fit, stops")
        };
        Ok((fits, why))
    }
}

/// How far the average is from a reading that it may not stand for, as the test has it.
fn away(error_bound: ErrorBound, reading: f32, average: f32) -> String {
    let real = f64::from(reading);
    let distance = (real - f64::from(average)).abs();
    match error_bound {
        ErrorBound::Lossless => format!("not {reading}"),
        ErrorBound::Absolute(bound) => {
            let bound = f64::from(bound);
            format!("{distance} from {reading}, more than {bound}")
        }
        ErrorBound::Relative(bound) => {
            let percent = (distance / real).abs() * 100.0;
            format!("{percent}% from {reading}, more than {bound}%")
        }
    }
}

/// Whether the point fits Swing, and why.
fn tried(model: &mut Swing, minute: i64, value: f32) -> Result<(bool, String), Refusal> {
    let before = model.clone();
    let fits = model.fit_data_point(minute, value)?;
    let (upper, lower) = if fits {
        model.slopes()
    } else {
        before.slopes()
    };
    let later = (minute - before.start_time()) as f64;
    let why = if model.len() == 1 && fits {
        "the line starts here: fits".to_string()
    } else if fits {
        let (upper, lower) = (short(upper), short(lower));
        format!("may rise by {lower} to {upper} a minute: fits")
    } else if before.len() == 1 {
        "takes no such value, stops".to_string()
    } else {
        let first = f64::from(before.model()?.0);
        let (upper, lower) = (short(first + upper * later), short(first + lower * later));
        format!("passes at {lower} to {upper} here, too far from it: does not fit, stops")
    };
    Ok((fits, why))
}

/// A number to four decimals.
fn short(number: f64) -> String {
    let text = format!("{number:.4}");
    text.trim_end_matches('0').trim_end_matches('.').to_string()
}
