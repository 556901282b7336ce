//! Streams that break behind some repeats, handed to each call that reads one: few that are drawn break
//! there.

use crate::record::Record;
use crate::{rescue, table};
use modelardb_rattle::ffi::STATE_WORDS;
use side_by_side::inputs::ONE;

/// What memory holds before a call.
const STALE: u8 = 0x5A;

/// How many repeats stand in front, the last of them where there is a place table.
const REPEATS: [usize; 4] = [1, 4, 9, 70];

/// The bits behind them, and how many values those are to be: a header that is cut off, a keep code before
/// any window, a window of no bits, a set padding bit, a further byte.
const TAILS: [(&str, usize); 5] = [
    ("11", 1),
    ("0", 1),
    ("1100000000000", 1),
    ("1", 0),
    ("00000000", 0),
];

/// A stream with its first value in full, mode 0, or on 1.0, mode 1.
struct Broken {
    mode: u32,
    bytes: Vec<u8>,
    count: usize,
    /// How many values and bits stand before the tail.
    read: usize,
    place: usize,
}

/// The records of a call.
pub fn records(call: usize) -> Vec<Record> {
    let mut records = vec![];
    for mode in [0, 1] {
        let with_table = REPEATS.len() - usize::from(call < 38);
        for repeats in &REPEATS[..with_table] {
            for (tail, more) in TAILS {
                let broken = Broken::new(mode, *repeats, tail, more);
                records.extend(broken.record(call));
            }
        }
    }
    records
}

impl Broken {
    fn new(mode: u32, repeats: usize, tail: &str, more: usize) -> Self {
        let first = match mode {
            0 => format!("{ONE:032b}"),
            _ => String::new(),
        };
        let before = first + &"10".repeat(repeats);
        let read = repeats + usize::from(mode == 0);
        Self {
            mode,
            bytes: packed(&(before.clone() + tail)),
            count: read + more,
            read,
            place: before.len(),
        }
    }

    /// It as a call is handed it, where the call reads such a stream.
    fn record(self, call: usize) -> Option<Record> {
        let (count, used) = (self.count as u64, self.bytes.len() as u64);
        let (x, stale) = (vec![self.mode, ONE], u32::from(STALE));
        let record = Record {
            call,
            ..Record::default()
        };
        Some(match call {
            6 => Record {
                x: [x, vec![0, 0]].concat(),
                w: vec![used, count, count / 2],
                p: self.bytes,
                r: vec![STALE.into(); STATE_WORDS],
                ..record
            },
            7 | 8 | 37 => Record {
                x,
                w: vec![count],
                v: vec![stale; if call == 7 { self.count } else { 1 }],
                p: self.bytes,
                ..record
            },
            31..=33 if self.mode == 1 => self.in_a_segment(record),
            35 => Record {
                v: vec![stale],
                r: self.reader(),
                p: self.bytes,
                ..record
            },
            36 => Record {
                s: self.reader(),
                p: self.bytes,
                ..record
            },
            39..=41 => self.with_its_table(record),
            44 | 45 => rescue::record(call, (self.mode, ONE), self.bytes, [used, count]),
            _ => return None,
        })
    }

    /// With the table of the values before the tail. A range takes in the value that breaks.
    fn with_its_table(self, record: Record) -> Record {
        let (count, used) = (self.count as u64, self.bytes.len() as u64);
        let begin = self.read as u64 - 1;
        let (x, w, room) = match record.call {
            39 => (vec![self.mode, ONE, 0, 0], vec![used, count, count / 2], 0),
            40 => (vec![self.mode, ONE], vec![count], 0),
            _ => (vec![self.mode, ONE], vec![count, begin, count], 2),
        };
        let words = if record.call == 39 { STATE_WORDS } else { 0 };
        Record {
            u: table::of_repeats(self.mode, self.read),
            x,
            w,
            v: vec![STALE.into(); room],
            r: vec![STALE.into(); words],
            p: self.bytes,
            ..record
        }
    }

    /// As the residuals behind a line of 1.0, or an average, at two timestamps of their own.
    fn in_a_segment(self, record: Record) -> Record {
        let total = self.count + 2;
        let model = u32::from(self.read > REPEATS[0]);
        Record {
            x: vec![model, ONE, ONE],
            t: (0..total as i64).collect(),
            q: [self.bytes, vec![self.count as u8]].concat(),
            v: vec![STALE.into(); if record.call == 31 { total } else { 1 }],
            ..record
        }
    }

    /// The row of a reader in front of the tail.
    fn reader(&self) -> Vec<u64> {
        let is_first = u64::from(self.mode == 0);
        let (place, read) = (self.place as u64, self.read as u64);
        vec![ONE.into(), 255, 0, is_first, place, read]
    }
}

/// Bits as bytes, the rest of the last one 0.
fn packed(bits: &str) -> Vec<u8> {
    let byte = |bits: &[u8]| {
        let value = |byte: u8, bit: &u8| 2 * byte + (bit - b'0');
        bits.iter().fold(0, value) << (8 - bits.len())
    };
    bits.as_bytes().chunks(8).map(byte).collect()
}
