//! Broken streams through every call that reads one. Each call must say the same number, value and place, those
//! that the bits alone give, and leave all memory as it was.

mod calls;
mod safe;

use crate::context::Context;
use crate::face;
use crate::parts::library_stream::Stream;
use crate::parts::list_program;
use crate::shape;
use modelardb_rattle::Fault;
use modelardb_rattle::ffi::ENTRY_WORDS;
use oracle::paper::macaque_v::Opening;
use oracle::paper::models::ErrorBound::{Absolute, Lossless, Relative};
use std::fmt::{Display, Formatter, Result};

/// What may be a stream.
struct Broken {
    bytes: Vec<u8>,
    count: usize,
    opening: Opening,
}

/// One in so many is listed too: that takes a process for each.
const LISTED: u64 = 50;

pub fn broken(context: &mut Context) {
    for round in 0..context.rounds(20) {
        let most = if round % 8 == 0 { 60 } else { 12 };
        let value = context.inputs.value();
        for opening in [Opening::WithFirst, Opening::On(value)] {
            for bound in [Lossless, Absolute(0.5), Relative(5.0)] {
                let count = 1 + context.inputs.below(most) as usize;
                let values = context.inputs.values(count);
                let stream = Stream::new(context, bound, opening, &values);
                every_damage(context, &stream.bytes, count, opening);
            }
        }
    }
}

fn every_damage(context: &mut Context, bytes: &[u8], count: usize, opening: Opening) {
    for (bytes, count) in damages(bytes, count) {
        let broken = Broken {
            bytes,
            count,
            opening,
        };
        broken.through_every_call(context);
    }
}

/// Each bit flipped, each byte dropped, each cut; a byte more, with no bit set or with one, or the stream
/// again; the count one lower and one higher.
fn damages(bytes: &[u8], count: usize) -> Vec<(Vec<u8>, usize)> {
    let mut damaged = vec![];
    for place in 0..8 * bytes.len() {
        let mut flipped = bytes.to_vec();
        flipped[place / 8] ^= 128 >> (place % 8);
        damaged.push((flipped, count));
    }
    for length in 0..bytes.len() {
        let (front, rest) = bytes.split_at(length);
        damaged.push(([front, &rest[1..]].concat(), count));
        damaged.push((front.to_vec(), count));
    }
    for more in [&[0x00][..], &[0x01], &[0x80], &[0x00, 0x10], bytes] {
        damaged.push(([bytes, more].concat(), count));
    }
    for other in [count - 1, count + 1] {
        damaged.push((bytes.to_vec(), other));
    }
    damaged
}

impl Broken {
    /// Entry 0 of its place table.
    fn entry(&self) -> [u64; ENTRY_WORDS] {
        let last = match self.opening {
            Opening::WithFirst => 0,
            Opening::On(value) => value,
        };
        [0, last.into(), 255, 0]
    }

    fn through_every_call(&self, context: &mut Context) {
        let refused = shape::refusal_of(&self.bytes, self.count, self.opening);
        let told = refused.map_or(Fault::ACCEPTED, face::fault);
        self.by_the_face(context, told);
        self.in_a_segment(context, told);
        self.by_the_safe_calls(context);
        if self.opening == Opening::WithFirst && context.inputs.below(LISTED) == 0 {
            let count = (self.count as u32).to_le_bytes();
            let input = [&count[..], &self.bytes].concat();
            list_program::both(context, &input, "a broken stream");
        }
    }
}

impl Display for Broken {
    fn fmt(&self, f: &mut Formatter) -> Result {
        let (bytes, count, opening) = (&self.bytes, self.count, self.opening);
        write!(f, "broken {bytes:02X?}, {count} values, {opening:X?}")
    }
}
