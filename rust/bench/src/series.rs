//! Readings of a hotel's rooms, always the same ones: a third of the streams are temperatures, a third
//! humidities and a third powers, one reading a minute, with two decimals.

use std::f64::consts::TAU;

const MINUTES_A_DAY: f64 = 1440.0;

/// So many rooms, with so many readings each.
pub fn rooms(streams: usize, values: usize) -> Vec<Vec<f32>> {
    let mut noise = Noise(1);
    let kinds = [temperature, humidity, power];
    let room = |number: usize| kinds[number % kinds.len()](&mut noise, values);
    (0..streams).map(room).collect()
}

/// Degrees: a level of its own that drifts over the day, and a sensor that is off by up to 0.05.
fn temperature(noise: &mut Noise, values: usize) -> Vec<f32> {
    let (level, drift) = (noise.between(17.0, 24.0), noise.between(0.5, 3.0));
    drifting(noise, values, level, drift, 0.05)
}

/// Per cent: as a temperature, with a sensor that is off by up to 0.5.
fn humidity(noise: &mut Noise, values: usize) -> Vec<f32> {
    let (level, drift) = (noise.between(30.0, 60.0), noise.between(2.0, 10.0));
    drifting(noise, values, level, drift, 0.5)
}

fn drifting(noise: &mut Noise, values: usize, level: f64, drift: f64, off: f64) -> Vec<f32> {
    let start = noise.between(0.0, TAU);
    let reading = |minute: usize| {
        let time = start + minute as f64 / MINUTES_A_DAY * TAU;
        two_decimals(level + drift * time.sin() + noise.between(-off, off))
    };
    (0..values).map(reading).collect()
}

/// Watts: a level that something switched on or off changes now and then, and up to 1 % around it.
fn power(noise: &mut Noise, values: usize) -> Vec<f32> {
    let mut level = 20.0;
    let reading = |_| {
        if noise.between(0.0, 1.0) < 0.02 {
            level = noise.between(20.0, 2000.0);
        }
        two_decimals(level * noise.between(0.99, 1.01))
    };
    (0..values).map(reading).collect()
}

fn two_decimals(value: f64) -> f32 {
    ((value * 100.0).round() / 100.0) as f32
}

/// A generator of numbers (splitmix64).
struct Noise(u64);

impl Noise {
    fn between(&mut self, low: f64, high: f64) -> f64 {
        self.0 = self.0.wrapping_add(0x9E37_79B9_7F4A_7C15);
        let mut word = self.0;
        word = (word ^ (word >> 30)).wrapping_mul(0xBF58_476D_1CE4_E5B9);
        word = (word ^ (word >> 27)).wrapping_mul(0x94D0_49BB_1331_11EB);
        let unit = ((word ^ (word >> 31)) >> 11) as f64 / (1u64 << 53) as f64;
        low + (high - low) * unit
    }
}
