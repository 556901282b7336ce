//! What a short call costs, through the safe crate: one value written to a state, and a short stream
//! read.

use crate::sides::{self, Ours, Side};
use modelardb_rattle::MacaqueV;
use oracle::paper::models::ErrorBound;
use std::hint::black_box;
use std::time::Instant;

/// How many values a short stream has.
pub const SHORT: usize = 12;

/// The nanoseconds of a call that writes one value behind the first values of a room.
pub fn one_value_written(rooms: &[Vec<f32>], bound: ErrorBound, rounds: u32) -> f64 {
    let begun: Vec<(MacaqueV, f32)> = rooms
        .iter()
        .map(|values| (sides::written(bound, &values[..SHORT]).0, values[SHORT]))
        .collect();
    let mut buffer = [0; 128];
    each(&begun, rounds, |(writer, value)| {
        let mut writer = writer.clone();
        let written = writer.compress_values(&[*value], &mut buffer);
        let _ = black_box((written, &buffer, writer));
    })
}

/// The nanoseconds of a call that reads the first values of a room.
pub fn short_stream_read(
    side: &dyn Side,
    rooms: &[Vec<f32>],
    bound: ErrorBound,
    rounds: u32,
) -> f64 {
    let streams: Vec<Vec<u8>> = rooms
        .iter()
        .map(|values| Ours.write(bound, &values[..SHORT]))
        .collect();
    let mut out = vec![0.0; SHORT];
    each(&streams, rounds, |bytes| {
        side.read(bytes, &mut out);
        black_box(&out);
    })
}

/// The nanoseconds of one call, by the best of the rounds over all items.
pub fn each<T>(items: &[T], rounds: u32, mut call: impl FnMut(&T)) -> f64 {
    let mut best = f64::INFINITY;
    for _ in 0..10 * rounds {
        let begin = Instant::now();
        items.iter().for_each(&mut call);
        best = best.min(begin.elapsed().as_secs_f64());
    }
    best * 1e9 / items.len() as f64
}
