//! Inputs: a small seeded generator, special floats, bounds, times and lists of values.

use oracle::paper::macaque_v::Opening;
use oracle::paper::models::ErrorBound::{self, Absolute, Lossless, Relative};
use oracle::paper::types::{wins_by_costs, wins_by_products};
use oracle::paper::{MOST_METADATA, MOST_VALUES};

/// Values by their bits.
pub const ONE: u32 = 0x3F80_0000;
pub const TWO: u32 = 0x4000_0000;
pub const INFINITY: u32 = 0x7F80_0000;
pub const NAN: u32 = 0x7FC0_0000;

/// One less than the most values of a call or stream, the most, and one more.
pub const ABOUT_MOST: [usize; 3] = [MOST_VALUES - 1, MOST_VALUES, MOST_VALUES + 1];

/// Zeros, ones, ends of ranges, infinities and NaNs: the floats at which rules change.
pub const SPECIAL: [u32; 36] = [
    0x0000_0000, // +0
    0x8000_0000, // -0
    0x0000_0001, // the least subnormal
    0x8000_0001,
    0x007F_FFFF, // the greatest subnormal
    0x0080_0000, // the least normal
    0x8080_0000,
    0x0080_0001,
    0x0011_1BF2,
    0x3380_0000, // 2^-24
    0x3A83_126F, // 0.001
    0x3DCC_CCCD, // 0.1
    0x3F00_0000, // 0.5
    0x3F7F_FFFF, // just under 1
    0x3F80_0000, // 1
    0xBF80_0000, // -1
    0x3F80_0001, // just over 1
    0x4000_0000, // 2
    0x4049_0FDB,
    0x40A0_0000, // 5
    0x42C7_FFFF, // just under 100
    0x42C8_0000, // 100
    0x42C8_0001, // just over 100
    0xC2C8_0000, // -100
    0x4B80_0000, // 2^24
    0x4B80_0001,
    0x7F00_0000,
    0x7F7F_FFFF, // the greatest
    0xFF7F_FFFF,
    0x7F80_0000, // +infinity
    0xFF80_0000, // -infinity
    0x7FC0_0000, // NaN
    0x7FC0_0001,
    0x7F80_0001,
    0xFFC1_2345,
    0xFFFF_FFFF,
];

/// A dozen of them, for short lists that are tried exhaustively.
pub const DOZEN: [u32; 12] = [
    0x0000_0000,
    0x8000_0000,
    0x0000_0001,
    0x3F80_0000,
    0x3F80_0001,
    0xBF80_0000,
    0xFF80_0000,
    0x7F7F_FFFF,
    0x7F80_0000,
    0x7FC0_0000,
    0x7FC1_2345,
    0xFFFF_FFFF,
];

/// M, and how many values PMC-Mean and Swing stand for.
pub type Lengths = (u32, [usize; 2]);

/// Whole numbers from 0 on, and the bound under which PMC-Mean takes so many of them, two or more; Swing takes all.
pub fn whole_numbers([pmc_mean, swing]: [usize; 2]) -> (Vec<u32>, ErrorBound) {
    let values = (0..swing).map(|number| (number as f32).to_bits());
    (values.collect(), Absolute((pmc_mean - 1) as f32 / 2.0))
}

/// A generator of inputs (splitmix64).
pub struct Inputs {
    state: u64,
}

impl Inputs {
    pub fn new(seed: u64) -> Self {
        Self { state: seed }
    }

    /// The generator of one of several that share a seed (FNV-1a of the name).
    pub fn named(seed: u64, name: &str) -> Self {
        let step = |hash: u64, byte: u8| (hash ^ u64::from(byte)).wrapping_mul(0x100_0000_01B3);
        Self::new(name.bytes().fold(seed ^ 0xCBF2_9CE4_8422_2325, step))
    }

    pub fn word(&mut self) -> u64 {
        self.state = self.state.wrapping_add(0x9E37_79B9_7F4A_7C15);
        let mut word = self.state;
        word = (word ^ (word >> 30)).wrapping_mul(0xBF58_476D_1CE4_E5B9);
        word = (word ^ (word >> 27)).wrapping_mul(0x94D0_49BB_1331_11EB);
        word ^ (word >> 31)
    }

    /// A number under `limit`.
    pub fn below(&mut self, limit: u64) -> u64 {
        self.word() % limit
    }

    pub fn flip(&mut self) -> bool {
        self.below(2) == 0
    }

    pub fn pick<T: Copy>(&mut self, from: &[T]) -> T {
        from[self.below(from.len() as u64) as usize]
    }

    /// A float from 0 up to 1.
    fn unit(&mut self) -> f64 {
        self.below(1 << 53) as f64 / (1u64 << 53) as f64
    }

    /// Any value: a special one, any bits, or an ordinary reading.
    pub fn value(&mut self) -> u32 {
        match self.below(4) {
            0 => self.pick(&SPECIAL),
            1 => self.word() as u32,
            _ => self.reading(),
        }
    }

    /// A bit turned, a byte less or more, or another first byte.
    pub fn damage(&mut self, bytes: &mut Vec<u8>) {
        match self.below(4) {
            0 => _ = bytes.pop(),
            1 => bytes.push(self.word() as u8),
            _ if bytes.is_empty() => {}
            2 => bytes[0] = bytes[0].wrapping_add(1),
            _ => {
                let bit = self.below(8 * bytes.len() as u64) as usize;
                bytes[bit / 8] ^= 0x80 >> (bit % 8);
            }
        }
    }

    /// An ordinary reading, with two decimals.
    pub fn reading(&mut self) -> u32 {
        ((self.below(8000) as f32 - 4000.0) / 100.0).to_bits()
    }

    /// Any f64: any bits, or what a sum or a slope may hold.
    pub fn wide(&mut self) -> f64 {
        match self.below(4) {
            0 => f64::from_bits(self.word()),
            1 => f64::from(f32::from_bits(self.value())),
            2 => (self.unit() - 0.5) * 1e-6,
            _ => (self.unit() - 0.5) * 1e4,
        }
    }

    /// An allowed bound.
    pub fn bound(&mut self) -> ErrorBound {
        let bound = match self.below(5) {
            0 => Lossless,
            1 => Absolute(self.pick(&[0.01, 0.1, 1.0, 100.0, 3e38, 1e-40])),
            2 => Relative(self.pick(&[0.01, 0.07, 1.0, 5.0, 99.9, 100.0])),
            3 => Absolute(f32::from_bits(self.word() as u32 & 0x7FFF_FFFF)),
            _ => Relative((self.unit() * 100.0) as f32),
        };
        if bound.is_allowed() { bound } else { Lossless }
    }

    /// A bound of about the distance of two values, where the test in f32 and that in f64 may part; not all are
    /// allowed.
    pub fn bound_about(&mut self, real: u32, approximate: u32) -> ErrorBound {
        let [real, approximate] = [real, approximate].map(|bits| f64::from(f32::from_bits(bits)));
        let away = (real - approximate).abs();
        let is_absolute = self.flip();
        let distance = if is_absolute {
            away
        } else {
            away / real.abs() * 100.0
        };
        let steps = self.below(5) as u32;
        let bits = (distance as f32).to_bits().wrapping_add(steps);
        let bound = f32::from_bits(bits.wrapping_sub(2));
        if is_absolute {
            Absolute(bound)
        } else {
            Relative(bound)
        }
    }

    /// An allowed bound. One in four is about the distance of a value of the list from the next one, or from the
    /// average of both.
    pub fn bound_for(&mut self, values: &[u32]) -> ErrorBound {
        let any = self.below(values.len() as u64 + 1) as usize;
        let at = self.pick(&[0, any]);
        let bound = match values.get(at..at + 2) {
            Some(&[value, next]) if self.below(4) == 0 => {
                let sum = f64::from(f32::from_bits(value)) + f64::from(f32::from_bits(next));
                let average = ((sum / 2.0) as f32).to_bits();
                let other = self.pick(&[next, average]);
                self.bound_about(value, other)
            }
            _ => self.bound(),
        };
        if bound.is_allowed() { bound } else { Lossless }
    }

    /// A bound, one in four not allowed or at an edge.
    pub fn any_bound(&mut self) -> ErrorBound {
        match self.below(8) {
            0 => Absolute(f32::from_bits(self.value())),
            1 => Relative(f32::from_bits(self.value())),
            _ => self.bound(),
        }
    }

    pub fn opening(&mut self) -> Opening {
        match self.below(3) {
            0 => Opening::WithFirst,
            _ => Opening::On(self.value()),
        }
    }

    /// Strictly increasing times within the limits, regular or not.
    pub fn times(&mut self, count: usize) -> Vec<i64> {
        let limit = 1i64 << 52;
        let step = self.pick(&[1, 10, 1000, 60_000_000, 1 << 34]);
        let regular = self.flip();
        let room = limit as u64 - count as u64 * step - 1;
        let mut time = match self.below(4) {
            0 => 0,
            1 => -limit,
            2 => 1_700_000_000_000_000,
            _ => self.below(room) as i64,
        };
        let mut times = vec![];
        for _ in 0..count {
            times.push(time);
            time += if regular {
                step as i64
            } else {
                1 + self.below(step) as i64
            };
        }
        times
    }

    /// Times that start or end at a limit or a tick beyond it, or of which one is out of order; or such
    /// as [`Inputs::times`] gives.
    pub fn any_times(&mut self, count: usize) -> Vec<i64> {
        let (limit, mut times) = (1i64 << 52, self.times(count));
        let (Some(&first), Some(&last)) = (times.first(), times.last()) else {
            return times;
        };
        let shift = match self.below(8) {
            0 => limit - last,
            1 => limit + 1 - last,
            2 => -limit - first,
            3 => -limit - 1 - first,
            _ => 0,
        };
        times.iter_mut().for_each(|time| *time += shift);
        if self.below(8) == 0 {
            let other = self.pick(&times);
            let at = self.below(count as u64) as usize;
            times[at] = self.pick(&[other, other - 1, i64::MIN, i64::MAX]);
        }
        times
    }

    /// Lengths up to `most`, of Swing about that from which on it wins: the last that loses, the first that wins and the
    /// next. Half of PMC-Mean's are a multiple of M or a little less, where the costs in f32 tie or nearly do.
    pub fn edge(&mut self, most: usize) -> Lengths {
        let most = most as u64;
        let m = 1 + self.below(most.min(MOST_METADATA.into()));
        let multiple = m * (1 + self.below(most / m));
        let (any, less) = (1 + self.below(most), self.below(multiple.min(32)));
        let pmc_mean = self.pick(&[any, multiple - less]);
        let swing = pmc_mean + pmc_mean / m + self.below(3);
        let lengths = [pmc_mean, swing.min(most)];
        (m as u32, lengths.map(|length| length as usize))
    }

    /// Lengths up to `most` at which the choice by the products and that by the costs part.
    pub fn parting_edge(&mut self, most: usize) -> Lengths {
        loop {
            let (m, [pmc_mean, swing]) = self.edge(most);
            if wins_by_products(m, pmc_mean, swing) != wins_by_costs(m, pmc_mean, swing) {
                return (m, [pmc_mean, swing]);
            }
        }
    }

    /// A list of values: constant, a line, steps or a walk with a little noise, or anything.
    pub fn values(&mut self, count: usize) -> Vec<u32> {
        let (kind, base) = (self.below(6), self.unit() * 100.0);
        let (slope, noise) = (self.unit() - 0.5, self.pick(&[0.0, 0.001, 0.1, 2.0]));
        let mut level = base;
        let mut values = vec![];
        for i in 0..count {
            level += match kind {
                1 => slope,
                2 if i % 16 == 0 => 10.0 * slope,
                3 => slope * (self.unit() - 0.5),
                _ => 0.0,
            };
            values.push(match kind {
                4 => self.value(),
                5 if self.below(8) == 0 => self.value(),
                _ => ((level + noise * (self.unit() - 0.5)) as f32).to_bits(),
            });
        }
        values
    }
}
