//! The place table: writing with one beside writing without, and an hour at the end of the longest streams beside
//! reading them whole.

use crate::jobs::{Job, Lists};
use crate::out::{put, say};
use crate::short::{SHORT, each};
use crate::sides::{MOST_VALUES, Ours, Side, Tabled, tabled};
use crate::{BOUNDS, Bench, head};
use modelardb_rattle::{Opening, PlaceTable};
use oracle::paper::models::ErrorBound;
use std::hint::black_box;

/// Writing with a table takes at most so many times as long as without.
const TABLED_GOAL: f64 = 1.05;

/// Reading an hour by a table is at least so many times as fast as reading the whole.
const RANGE_GOAL: f64 = 100.0;

impl Bench {
    /// The same bytes, with a table and without: of short streams, and of the longest.
    pub fn tabled(&self, rooms: &[Vec<f32>], nights: &[Vec<f32>]) -> bool {
        if !self.is_wanted("tabled") {
            return true;
        }
        say!("Nanoseconds a value, streams written with a place table and without\n");
        head(
            "| job | bound | values | with | without | ratio | goal |",
            "",
        );
        let mut good = true;
        for (bound, error_bound) in BOUNDS {
            for (values, rooms) in [("1,000", rooms), ("65,536", nights)] {
                good &= self.tabled_row(bound, values, &Lists::new(rooms, error_bound));
            }
        }
        say!();
        good
    }

    fn tabled_row(&self, bound: &str, values: &str, lists: &Lists) -> bool {
        let same = lists.agree(&Tabled, &Ours, Job::Written);
        if !same {
            say!("tabled, {bound}, {values}: other bytes than without a table");
        }
        let times = self.until(
            || lists.times(&[&Tabled, &Ours], Job::Written, self.rounds),
            |times| self.keeps(times[0] / times[1], TABLED_GOAL),
        );
        put!("| tabled | {bound} | {values} | {:.2} |", times[0]);
        let good = self.ratio(times[0], times[1], TABLED_GOAL);
        say!();
        good && same
    }

    /// The last values of each of the longest streams.
    pub fn ranges(&self, rooms: &[Vec<f32>]) -> bool {
        if !self.is_wanted("range") {
            return true;
        }
        say!(
            "Nanoseconds for the last {SHORT} of 65,536 values by a place table, and for all of them\n"
        );
        let columns = format!("| job | bound | {SHORT} | all | times as fast | goal |");
        head(&columns, "");
        let mut good = true;
        for (bound, error_bound) in BOUNDS {
            let nights = Nights::new(rooms, error_bound);
            if !nights.agree() {
                say!("range, {bound}: other values than the whole reading's");
                good = false;
            }
            let (hour, all) = self.until(
                || (nights.hours(self.rounds), nights.all(self.rounds)),
                |(hour, all)| self.keeps(RANGE_GOAL, all / hour),
            );
            let faster = all / hour;
            let keeps = self.keeps(RANGE_GOAL, faster);
            let mark = if keeps { "" } else { " is below the limit" };
            good &= keeps;
            say!(
                "| range | {bound} | {hour:.0} | {all:.0} | {faster:.0}{mark} | {RANGE_GOAL:.0} |"
            );
        }
        say!();
        good
    }
}

/// Streams of the most values, with their tables.
struct Nights(Vec<(Vec<u8>, PlaceTable)>);

impl Nights {
    fn new(rooms: &[Vec<f32>], bound: ErrorBound) -> Self {
        Self(rooms.iter().map(|values| tabled(bound, values)).collect())
    }

    /// Whether each hour is the end of the whole reading.
    fn agree(&self) -> bool {
        let mut out = vec![0.0; MOST_VALUES];
        self.0.iter().all(|(bytes, table)| {
            Ours.read(bytes, &mut out);
            out.ends_with(&last(bytes, table))
        })
    }

    /// The nanoseconds of one hour.
    fn hours(&self, rounds: u32) -> f64 {
        each(&self.0, rounds, |(bytes, table)| {
            black_box(last(bytes, table));
        })
    }

    /// The nanoseconds of one whole reading.
    fn all(&self, rounds: u32) -> f64 {
        let mut out = vec![0.0; MOST_VALUES];
        each(&self.0, rounds.div_ceil(5), |(bytes, _)| {
            Ours.read(bytes, &mut out);
            black_box(&out);
        })
    }
}

/// An hour of readings at a stream's end.
fn last(bytes: &[u8], table: &PlaceTable) -> Vec<f32> {
    let hour = MOST_VALUES - SHORT..MOST_VALUES;
    let values = table.range(bytes, MOST_VALUES, Opening::First, hour);
    values.expect("a stream with its table")
}
