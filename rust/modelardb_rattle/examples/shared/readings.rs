//! Readings from a file: a time as 06:05 and a value on each line, the times increasing, those before the first
//! one's on the next day; a line that begins with # is skipped, and so is an empty one.

use modelardb_rattle::ErrorBound;

/// What a file holds.
#[derive(Default)]
pub struct Readings {
    /// The times as they stand there.
    pub names: Vec<String>,
    /// Their minutes from the first day's midnight on.
    pub times: Vec<i64>,
    pub values: Vec<f32>,
}

pub fn of_file(file: &str) -> Result<Readings, String> {
    let text = std::fs::read_to_string(file).map_err(|why| format!("{file}: {why}"))?;
    of_text(file, &text)
}

/// The readings of a file's text, or which line is not one and why.
pub fn of_text(file: &str, text: &str) -> Result<Readings, String> {
    let mut readings = Readings::default();
    for (at, line) in text.lines().enumerate() {
        if !line.starts_with('#') && !line.trim().is_empty() {
            let taken = readings.take(line);
            taken.map_err(|why| format!("{file}:{}: {why}", at + 1))?;
        }
    }
    if readings.values.is_empty() {
        return Err(format!("{file}: no readings"));
    }
    Ok(readings)
}

impl Readings {
    /// Takes one more line.
    fn take(&mut self, line: &str) -> Result<(), String> {
        let words: Vec<&str> = line.split_whitespace().collect();
        let [name, value] = words[..] else {
            return Err(format!("{line:?} is not a time and a value"));
        };
        let time = self.minute(name)?;
        if self.times.last().is_some_and(|&last| last >= time) {
            return Err(format!("{name} is not later than the time before it"));
        }
        self.values.push(number(value)?);
        self.times.push(time);
        self.names.push(name.to_string());
        Ok(())
    }

    /// The minute at a time as 06:05: where the first reading's time is later, that of the next day.
    pub fn minute(&self, name: &str) -> Result<i64, String> {
        let not_one = || format!("{name:?} is no time of the day, as 06:05");
        let minute = minute(name).ok_or_else(not_one)?;
        let is_next_day = self.times.first().is_some_and(|&first| minute < first);
        Ok(minute + if is_next_day { 24 * 60 } else { 0 })
    }
}

/// The minute of the day at a time as 06:05.
fn minute(time: &str) -> Option<i64> {
    let &[h, i, b':', m, n] = time.as_bytes() else {
        return None;
    };
    let two = |tens: u8, ones: u8| {
        let are_digits = tens.is_ascii_digit() && ones.is_ascii_digit();
        are_digits.then(|| 10 * i64::from(tens - b'0') + i64::from(ones - b'0'))
    };
    let (hour, minute) = (two(h, i)?, two(m, n)?);
    (hour < 24 && minute < 60).then_some(60 * hour + minute)
}

fn number(word: &str) -> Result<f32, String> {
    let not_one = |_| format!("{word:?} is not a number");
    word.parse().map_err(not_one)
}

/// A bound in words: `lossless`, `0.5` or `5%`.
pub fn bound(word: &str) -> Result<ErrorBound, String> {
    let bound = match word.strip_suffix('%') {
        _ if word == "lossless" => Ok(ErrorBound::Lossless),
        Some(percent) => percent.parse().map(ErrorBound::Relative),
        None => word.parse().map(ErrorBound::Absolute),
    };
    bound.map_err(|_| format!("{word:?} is no bound, as lossless, 0.5 or 5%"))
}
