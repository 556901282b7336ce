//! Two readings of which PMC-Mean, or a stream, makes something else by one test than by the other.

use super::Alone::{self, InF32, InF64};
use super::{both, number, shown};
use oracle::paper::macaque_v::{MacaqueV, Opening, kept};
use oracle::paper::models::ErrorBound::{self, Absolute, Relative};
use oracle::paper::pmc_mean::PMCMean;
use std::ops::RangeInclusive;

/// Two readings, each from one number to another in its last decimal, and bounds.
struct Kind {
    name: &'static str,
    decimals: i32,
    digits: [RangeInclusive<i32>; 2],
    bounds: (fn(f32) -> ErrorBound, &'static [f32]),
}

const ROUND: &[f32] = &[0.1, 0.2, 0.5, 1.0, 2.0, 5.0, 10.0, 20.0];

const KINDS: [Kind; 6] = [
    Kind {
        name: "two whole numbers from 0 to 100, at each whole per cent",
        decimals: 0,
        digits: [0..=100, 0..=100],
        bounds: (Relative, &WHOLE),
    },
    Kind {
        name: "0, then a reading from 0.1 to 60000.0, at each whole per cent",
        decimals: 1,
        digits: [0..=0, 1..=600_000],
        bounds: (Relative, &WHOLE),
    },
    Kind {
        name: "two readings from -30.0 to 30.0, at 0.1 to 20 per cent",
        decimals: 1,
        digits: [-300..=300, -300..=300],
        bounds: (Relative, ROUND),
    },
    Kind {
        name: "two readings from 15.00 to 30.00, at 0.1 to 20 per cent",
        decimals: 2,
        digits: [1500..=3000, 1500..=3000],
        bounds: (Relative, ROUND),
    },
    Kind {
        name: "two readings from 15.00 to 30.00, at 0.1 to 20",
        decimals: 2,
        digits: [1500..=3000, 1500..=3000],
        bounds: (Absolute, ROUND),
    },
    Kind {
        name: "two readings from -30.0 to 30.0, at 0.1 to 20",
        decimals: 1,
        digits: [-300..=300, -300..=300],
        bounds: (Absolute, ROUND),
    },
];

/// 1 to 100.
const WHOLE: [f32; 100] = {
    let mut all = [0.0; 100];
    let mut at = 0;
    while at < all.len() {
        all[at] = (at + 1) as f32;
        at += 1;
    }
    all
};

pub fn print() {
    for kind in &KINDS {
        println!("{}", kind.name);
        kind.print("PMC-Mean", taken, said_of_taken);
        kind.print("stream", kept_second, said_of_kept);
        println!();
    }
}

/// What is made of two readings within a bound, and how much was let through.
type Made = fn(ErrorBound, [f32; 2]) -> (u32, u32);

/// How that is said.
type Said = fn(ErrorBound, [f32; 2]) -> String;

/// Two readings that are stored otherwise, the test that lets more of them through, and the bound.
struct Parted {
    alone: Alone,
    bound: f32,
    readings: [f32; 2],
}

impl Parted {
    /// What comes first is smaller.
    fn order(&self) -> (f32, f32, [(f32, bool); 2]) {
        let sizes = self.readings.map(f32::abs);
        let greatest = sizes[0].max(sizes[1]).max(self.bound);
        let size = |value: f32| (value.abs(), value.is_sign_negative());
        (greatest, self.bound, self.readings.map(size))
    }
}

impl Kind {
    /// How many pairs part, and the smallest of each test.
    fn print(&self, name: &str, made: Made, said: Said) {
        let (found, tried) = self.parting(made);
        println!("  {name}: of {tried} part {}", found.len());
        for wanted in [InF32, InF64] {
            if let Some(parted) = found.iter().find(|parted| parted.alone == wanted) {
                let (bound, readings) = ((self.bounds.0)(parted.bound), parted.readings);
                let (today, first) = both(|| said(bound, readings));
                let ([one, two], bound) = (readings, shown(bound));
                println!("    {wanted}: {one}, {two} at {bound}: {today}; in f32 {first}");
            }
        }
    }

    /// The readings that part, smallest first, and how many were tried.
    fn parting(&self, made: Made) -> (Vec<Parted>, usize) {
        let (mut found, mut tried) = (vec![], 0);
        let [ones, twos] = self.digits.clone();
        for pair in ones.flat_map(|one| twos.clone().map(move |two| [one, two])) {
            let readings = pair.map(|digits| number(digits, self.decimals));
            for &bound in self.bounds.1 {
                let (today, first) = both(|| made((self.bounds.0)(bound), readings));
                tried += 1;
                if today != first {
                    let alone = if today.1 > first.1 { InF64 } else { InF32 };
                    found.push(Parted {
                        alone,
                        bound,
                        readings,
                    });
                }
            }
        }
        found.sort_by(|a, b| a.order().partial_cmp(&b.order()).expect("no NaN"));
        (found, tried)
    }
}

/// PMC-Mean's average, and how many readings it takes.
fn taken(bound: ErrorBound, [one, two]: [f32; 2]) -> (u32, u32) {
    let fresh = PMCMean::new(bound).expect("an allowed bound");
    let step = |state: PMCMean, value: f32| state.fit_value(value.to_bits()).expect("a step");
    let (_, state) = step(step(fresh, one).1, two);
    let average = state.model().expect("a first reading fits");
    (average, state.length as u32)
}

fn said_of_taken(bound: ErrorBound, readings: [f32; 2]) -> String {
    let (average, count) = taken(bound, readings);
    format!("takes {count}, as {}", f32::from_bits(average))
}

/// What is kept of the second reading, and how much shorter it is: the first one again, or so many zeros at its end.
fn kept_second(bound: ErrorBound, readings: [f32; 2]) -> (u32, u32) {
    let [one, two] = readings.map(f32::to_bits);
    match kept(bound, one, two) {
        again if again == one => (again, u32::BITS),
        other => (other, other.trailing_zeros().min(u32::BITS - 1)),
    }
}

fn said_of_kept(bound: ErrorBound, readings: [f32; 2]) -> String {
    let values = readings.map(f32::to_bits);
    let mut buffer = [0; 12];
    let writer = MacaqueV::new(bound, Opening::WithFirst).expect("an allowed bound");
    let writer = writer.compress_values(&values, &mut buffer).expect("room");
    let (bytes, last) = (&buffer[..writer.place.div_ceil(8)], writer.last_value);
    format!("keeps {} in {bytes:02X?}", f32::from_bits(last))
}
