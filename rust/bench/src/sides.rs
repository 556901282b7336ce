//! What is compared: the proved library through its safe crate, and the Rust's text by its own entry
//! points, on one list or stream whose first value is stored in full.

use modelardb_rattle::{self as library, MacaqueV, Opening, PlaceTable, TabledWriter};
use oracle::paper::macaque_v;
use oracle::paper::models::ErrorBound;
use oracle::rust::Direct;

/// The most values of a list.
pub const MOST_VALUES: usize = MacaqueV::MOST_VALUES;

/// A side of the comparison.
pub trait Side {
    /// The bytes of a stream of the values, in a list of their own.
    fn write(&self, bound: ErrorBound, values: &[f32]) -> Vec<u8>;
    /// The values of a stream, as many as `out` holds, into it.
    fn read(&self, bytes: &[u8], out: &mut Vec<f32>);
    /// The sum of the `count` values of a stream.
    fn sum(&self, bytes: &[u8], count: usize) -> f32;
}

/// The proved library.
pub struct Ours;

impl Side for Ours {
    fn write(&self, bound: ErrorBound, values: &[f32]) -> Vec<u8> {
        let (writer, mut buffer) = written(bound, values);
        buffer.truncate(writer.bytes_used());
        buffer
    }

    fn read(&self, bytes: &[u8], out: &mut Vec<f32>) {
        let drawn = library::macaque_v::grid(bytes, out.len(), Opening::First, out);
        drawn.expect("a stream");
    }

    fn sum(&self, bytes: &[u8], count: usize) -> f32 {
        library::macaque_v::sum(bytes, count, Opening::First).expect("a stream")
    }
}

/// The proved library, with a place table written beside each stream.
pub struct Tabled;

impl Side for Tabled {
    fn write(&self, bound: ErrorBound, values: &[f32]) -> Vec<u8> {
        tabled(bound, values).0
    }

    fn read(&self, bytes: &[u8], out: &mut Vec<f32>) {
        Ours.read(bytes, out);
    }

    fn sum(&self, bytes: &[u8], count: usize) -> f32 {
        Ours.sum(bytes, count)
    }
}

/// The bytes of a stream of the values, and its table.
pub fn tabled(bound: ErrorBound, values: &[f32]) -> (Vec<u8>, PlaceTable) {
    let mut buffer = room_for(values);
    let writer = TabledWriter::new(of_library(bound), Opening::First);
    let mut writer = writer.expect("an allowed bound");
    let written = writer.compress_values(values, &mut buffer);
    written.expect("room for every value");
    let (writer, table) = writer.into_parts();
    buffer.truncate(writer.bytes_used());
    (buffer, table)
}

/// A buffer with room for 45 bits a value, the most that one takes.
fn room_for(values: &[f32]) -> Vec<u8> {
    vec![0; (45 * values.len()).div_ceil(8)]
}

/// A writer behind the values, and its buffer.
pub fn written(bound: ErrorBound, values: &[f32]) -> (MacaqueV, Vec<u8>) {
    let mut buffer = room_for(values);
    let writer = MacaqueV::new(of_library(bound), Opening::First);
    let mut writer = writer.expect("an allowed bound");
    let written = writer.compress_values(values, &mut buffer);
    written.expect("room for every value");
    (writer, buffer)
}

/// The bytes of a stream of the values by the oracle's own program, which is slow.
pub fn by_paper(bound: ErrorBound, values: &[f32]) -> Vec<u8> {
    let bits: Vec<u32> = values.iter().map(|value| value.to_bits()).collect();
    let mut buffer = room_for(values);
    let writer = macaque_v::MacaqueV::new(bound, macaque_v::Opening::WithFirst);
    let written = writer.and_then(|writer| writer.compress_values(&bits, &mut buffer));
    let place = written.expect("room for every value").place;
    buffer.truncate(place.div_ceil(8));
    buffer
}

/// How the writer behind all values of a stream comes back. The bytes stay, as a stream has no bits behind its last
/// value.
pub type Again = fn(ErrorBound, &mut [u8], usize) -> MacaqueV;

pub fn reopened(bound: ErrorBound, bytes: &mut [u8], count: usize) -> MacaqueV {
    let used = bytes.len();
    let writer = MacaqueV::reopen(bytes, used, count, count, Opening::First, of_library(bound));
    writer.expect("a stream")
}

pub fn rescued(bound: ErrorBound, bytes: &mut [u8], count: usize) -> MacaqueV {
    let used = bytes.len();
    let writer = MacaqueV::rescue(bytes, used, count, Opening::First, of_library(bound));
    writer.expect("a stream")
}

fn of_library(bound: ErrorBound) -> library::ErrorBound {
    match bound {
        ErrorBound::Lossless => library::ErrorBound::Lossless,
        ErrorBound::Absolute(bound) => library::ErrorBound::Absolute(bound),
        ErrorBound::Relative(bound) => library::ErrorBound::Relative(bound),
    }
}

/// The text's grid has a timestamp for each value, and looks only at how many there are.
static TIMESTAMPS: [i64; MOST_VALUES] = [0; MOST_VALUES];

impl Side for Direct {
    fn write(&self, bound: ErrorBound, values: &[f32]) -> Vec<u8> {
        (self.write)(bound, values)
    }

    fn read(&self, bytes: &[u8], out: &mut Vec<f32>) {
        let timestamps = &TIMESTAMPS[..out.len()];
        out.clear();
        (self.read)(bytes, timestamps, out);
    }

    fn sum(&self, bytes: &[u8], count: usize) -> f32 {
        (self.sum)(bytes, count)
    }
}
