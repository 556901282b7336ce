//! How often the tests part on the readings that are timed (rust/bench).

#[path = "../../../bench/src/series.rs"]
mod series;

use super::{both, shown};
use oracle::paper::macaque_v::kept;
use oracle::paper::models::ErrorBound::{self, Absolute, Relative};
use oracle::paper::pmc_mean::PMCMean;

/// So many streams of 1,000 readings.
const ROOMS: usize = 10_000;

const BOUNDS: [ErrorBound; 5] = [
    Absolute(0.1),
    Relative(1.0),
    Relative(2.0),
    Relative(5.0),
    Relative(7.0),
];

pub fn print() {
    let rooms = series::rooms(ROOMS, 1_000);
    println!("{ROOMS} streams of 1,000 readings: values kept, and steps of PMC-Mean, that part");
    for bound in BOUNDS {
        let (mut values, mut streams, mut steps) = (0, 0, 0);
        for room in &rooms {
            let kept = kept_otherwise(bound, room);
            values += kept;
            streams += usize::from(kept > 0);
            steps += fitted_otherwise(bound, room);
        }
        let bound = shown(bound);
        println!("  {bound}: {values} values in {streams} streams, {steps} steps");
    }
}

/// How many values a stream keeps otherwise by the test in f32, each behind those that are kept by the test in f64.
fn kept_otherwise(bound: ErrorBound, room: &[f32]) -> usize {
    let (mut last, mut parted) = (room[0].to_bits(), 0);
    for value in &room[1..] {
        let (today, first) = both(|| kept(bound, last, value.to_bits()));
        parted += usize::from(today != first);
        last = today;
    }
    parted
}

/// How many steps of PMC-Mean fit by one test alone; a new model begins where one does not fit by the test in f64.
fn fitted_otherwise(bound: ErrorBound, room: &[f32]) -> usize {
    let fresh = PMCMean::new(bound).expect("an allowed bound");
    let (mut state, mut parted) = (fresh, 0);
    for value in room {
        let step = |state: PMCMean| state.fit_value(value.to_bits()).expect("few values");
        let ((fits, next), (first_fits, _)) = both(|| step(state));
        parted += usize::from(fits != first_fits);
        state = if fits { next } else { step(fresh).1 };
    }
    parted
}
