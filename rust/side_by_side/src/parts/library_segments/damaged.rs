//! Damaged segments: each bit flipped, each part cut anywhere, a byte more, other forms, counts, models,
//! extremes and timestamps. They are drawn and summed, and held against the segment's shape.

use super::both;
use super::source::Source;
use crate::context::Context;
use crate::face::{fault as fault_of, segments as face};
use crate::inputs::SPECIAL;
use crate::lent::STALE_VALUE;
use crate::parts::segments::refusal_of;
use modelardb_rattle::ffi::StoredSegment;
use modelardb_rattle::{Fault, Segment};
use oracle::paper::judge_times;

pub fn damaged(context: &mut Context) {
    for _ in 0..context.rounds(300) {
        let count = context.inputs.below(6) as usize;
        every_damage(context, count);
    }
    for count in [40, 255] {
        some_damage(context, count);
    }
    for _ in 0..context.rounds(2) {
        every_form(context);
    }
    for _ in 0..context.rounds(30_000) {
        any_bytes(context);
    }
}

/// A segment as it was written, and times for it.
type Sound = (Segment, Vec<i64>);

/// One of any values.
fn any_segment(context: &mut Context, count: usize) -> Sound {
    let source = Source::any(context, count);
    let segment = both::segment_of(context, &source).expect("few residuals");
    (segment, source.times(context))
}

fn every_damage(context: &mut Context, count: usize) {
    let sound = any_segment(context, count);
    for place in 0..8 * sound.0.values.len() {
        changed(context, &sound, |segment| flip(&mut segment.values, place));
    }
    for place in 0..8 * sound.0.residuals.len() {
        changed(context, &sound, |segment| {
            flip(&mut segment.residuals, place)
        });
    }
    for length in 0..sound.0.values.len() {
        changed(context, &sound, |segment| segment.values.truncate(length));
    }
    for length in 0..sound.0.residuals.len() {
        changed(context, &sound, |segment| {
            segment.residuals.truncate(length)
        });
    }
    with_others(context, &sound);
    at_other_times(context, &sound);
}

/// Of a segment of many residuals: bits anywhere, and those of its last bytes.
fn some_damage(context: &mut Context, count: usize) {
    let sound = any_segment(context, count);
    let bits = 8 * sound.0.residuals.len();
    let mut places: Vec<usize> = (bits.saturating_sub(40)..bits).collect();
    places.extend((0..100).map(|_| context.inputs.below(bits as u64) as usize));
    for place in places {
        changed(context, &sound, |segment| {
            flip(&mut segment.residuals, place)
        });
    }
    with_others(context, &sound);
    at_other_times(context, &sound);
}

/// Turns a bit; the last byte of the residuals is the one that counts them.
fn flip(bytes: &mut [u8], place: usize) {
    bytes[place / 8] ^= 128 >> (place % 8);
}

/// With a byte more in each place, and with other counts, extremes and models.
fn with_others(context: &mut Context, sound: &Sound) {
    let end = sound.0.residuals.len();
    for more in [0x00, 0x01, 0x80, 0xFF] {
        changed(context, sound, |segment| segment.values.push(more));
        changed(context, sound, |segment| segment.residuals.push(more));
        let stream_end = end.saturating_sub(1);
        changed(context, sound, |segment| {
            segment.residuals.insert(stream_end, more)
        });
    }
    for count in (0..=255).filter(|_| end > 0) {
        changed(context, sound, |segment| segment.residuals[end - 1] = count);
    }
    for value in SPECIAL {
        changed(context, sound, |segment| segment.min_value_bits = value);
        changed(context, sound, |segment| segment.max_value_bits = value);
    }
    for model in [0, 1, 2, 3, 256, u32::MAX] {
        changed(context, sound, |segment| segment.model_type_id = model);
    }
}

/// At more or fewer timestamps, and at some that are not allowed.
fn at_other_times(context: &mut Context, (segment, times): &Sound) {
    let total = times.len();
    for count in [0, 1, total - 1, total + 1, total + 2] {
        let times = context.inputs.times(count);
        used_as_it_is(context, segment, &times);
    }
    for _ in 0..8 {
        let times = context.inputs.any_times(total);
        used_as_it_is(context, segment, &times);
    }
}

/// Parameter bytes of every length from 0 to 10, with every first byte, in a segment that is sound.
fn every_form(context: &mut Context) {
    let sound = any_segment(context, 2);
    for length in 0..=10 {
        for flag in 0..=255 {
            let mut values: Vec<u8> = (0..length).map(|_| context.inputs.word() as u8).collect();
            values.iter_mut().take(1).for_each(|byte| *byte = flag);
            for model in [0, 1] {
                changed(context, &sound, |segment| {
                    segment.model_type_id = model;
                    segment.values.clone_from(&values);
                });
            }
        }
    }
}

/// Any bytes as a segment, at times that are allowed or not.
fn any_bytes(context: &mut Context) {
    let inputs = &mut context.inputs;
    let mut bytes = |most| -> Vec<u8> {
        let length = inputs.below(most);
        (0..length).map(|_| inputs.word() as u8).collect()
    };
    let (mut values, mut residuals) = (bytes(10), bytes(12));
    values.iter_mut().take(1).for_each(|flag| *flag %= 6);
    residuals
        .iter_mut()
        .rev()
        .take(1)
        .for_each(|count| *count %= 6);
    let segment = Segment {
        model_type_id: inputs.below(2) as u32,
        min_value_bits: inputs.value(),
        max_value_bits: inputs.value(),
        values,
        residuals,
    };
    let count = inputs.below(10) as usize;
    let times = inputs.any_times(count);
    used_as_it_is(context, &segment, &times);
}

/// A sound segment with a change.
fn changed(context: &mut Context, (segment, times): &Sound, change: impl FnOnce(&mut Segment)) {
    let mut damaged = segment.clone();
    change(&mut damaged);
    used_as_it_is(context, &damaged, times);
}

/// Draws and sums what may be a segment. Of valid times and a model that there is, the refusal is told by
/// the bits alone.
fn used_as_it_is(context: &mut Context, segment: &Segment, times: &[i64]) {
    let (stored, out) = (StoredSegment::from(segment), vec![STALE_VALUE; times.len()]);
    let (fault, _) = both::read(context, both::GRID, stored, times, &out);
    for sum in [both::BY_AVERAGE, both::OVER] {
        both::read(context, sum, stored, times, &[STALE_VALUE]);
    }
    if segment.model_type_id < 2 && judge_times(times).is_ok() {
        let refusal = refusal_of(face::read(stored, times)).map(fault_of);
        let input = || format!("reading {segment:X?} at {times:?}");
        let refusal = refusal.unwrap_or(Fault::ACCEPTED);
        context.same("the segment's shape", refusal, fault, input);
    }
}
