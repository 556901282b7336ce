//! Inputs: any of a call's, and those at its limits.

use crate::calls::answered;
use crate::record::Record;
use crate::{rescue, table};
use modelardb_rattle::Fault;
use modelardb_rattle::ffi::{
    MODEL_BUILDER_WORDS, PMC_MEAN_WORDS, READER_WORDS, SEGMENT_WORDS, SELECTED_MODEL_WORDS,
    STATE_WORDS, SWING_WORDS, Words,
};
use oracle::paper::macaque_v::Opening;
use oracle::paper::{MOST_METADATA, MOST_RESIDUALS, MOST_VALUES, size};
use side_by_side::face::{self, choice, fit, reader, segments};
use side_by_side::inputs::{ABOUT_MOST, Inputs, ONE, SPECIAL};

/// What memory holds before a call.
pub const STALE: u8 = 0x5A;

/// Records that no drawing finds: at the limits of counts, lists and states, and above them.
pub fn at_limits(call: usize) -> Vec<Record> {
    let mut records = above_limits(call);
    let accepted = within_limits(call);
    records.extend(accepted.into_iter().map(|record| Record { call, ..record }));
    records
}

/// As many values as a call takes, all the same, so that their lines are short: each of them is coded in two
/// bits, those of a repeat, but for a stream's first, which is stored in full.
fn within_limits(call: usize) -> Vec<Record> {
    let repeats = vec![0xAA; MOST_VALUES / 4];
    let out = |places| vec![STALE.into(); places];
    let most = MOST_VALUES as u64;
    let record = Record::default();
    match call {
        // The bytes that it takes, and one less; so too of lists that take the most bits.
        5 => [MOST_VALUES / 4 + 4, MOST_VALUES / 4 + 3]
            .map(written)
            .into_iter()
            .chain(largest_written())
            .collect(),
        6 => [0, 1, most].map(reopened).to_vec(),
        7 | 8 | 37 => vec![Record {
            x: vec![1, ONE],
            w: vec![most],
            p: repeats,
            v: out(if call == 7 { MOST_VALUES } else { 1 }),
            ..record
        }],
        13 | 14 => vec![Record {
            x: vec![ONE],
            w: vec![most],
            v: out(if call == 14 { MOST_VALUES } else { 1 }),
            ..record
        }],
        19 => vec![Record {
            x: vec![ONE, ONE],
            w: vec![0, 10, most],
            v: out(1),
            ..record
        }],
        30 => vec![Record {
            x: vec![0, ONE, ONE, 0, 0],
            v: vec![0; MOST_RESIDUALS],
            p: vec![STALE; 8],
            q: vec![STALE; 6 * MOST_RESIDUALS],
            r: vec![STALE.into(); SEGMENT_WORDS],
            ..record
        }],
        38..42 => table::within_limits(call),
        42 | 43 => [0, 1, 2, most - 1, most]
            .map(|count| [0, 1].map(|mode| sized(count, mode)))
            .concat(),
        44.. => rescue::within_limits(call),
        _ => vec![],
    }
}

/// Counts and lists above their limits, and states at and above them.
fn above_limits(call: usize) -> Vec<Record> {
    let mut inputs = Inputs::new(call as u64);
    let mut record = loop {
        let record = drawn(call, &mut inputs);
        // The first two calls answer a value, and any of them will do; a line of 65,536 points has two ends,
        // and a reader behind as many values a place.
        let is_line = call != 16 || record.r.get(11).is_some_and(|&length| length > 1);
        let has_place = call != 35 || record.r.get(4).is_some_and(|&place| place > 0);
        if call < 2 || answered(&record).0 == [0; 3] && is_line && has_place {
            break record;
        }
    };
    match call {
        0 => SPECIAL
            .map(|x| Record {
                x: vec![x],
                ..record.clone()
            })
            .to_vec(),
        5 | 38 => {
            record.v = vec![0; MOST_VALUES + 1];
            vec![record]
        }
        6..=8 | 13 | 14 | 37 | 39..=41 | 44 | 45 => {
            let place = usize::from([6, 39, 44, 45].contains(&call));
            record.w[place] = MOST_VALUES as u64 + 1;
            vec![record]
        }
        10 | 35 => with_length(record, 5),
        16 => with_length(record, 11),
        19 => {
            record.w[2] = MOST_VALUES as u64 + 1;
            vec![record]
        }
        20 | 21 | 31..=33 => {
            record.t = vec![0; MOST_VALUES + 1];
            vec![record]
        }
        23 => {
            let at = if record.r[6] == 1 { 5 } else { 18 };
            with_length(record, at)
        }
        25 => {
            record.v = vec![0; MOST_VALUES + 1];
            vec![record]
        }
        30 => {
            record.v = vec![0; MOST_RESIDUALS + 1];
            vec![record]
        }
        42 | 43 => [1, u64::MAX / 44, u64::MAX - MOST_VALUES as u64]
            .map(|above| Record {
                w: vec![MOST_VALUES as u64 + above],
                ..record.clone()
            })
            .to_vec(),
        _ => vec![],
    }
}

/// How large a stream of so many values gets in a mode.
fn sized(count: u64, mode: u32) -> Record {
    Record {
        x: vec![mode],
        w: vec![count],
        r: vec![STALE.into()],
        ..Record::default()
    }
}

/// The most values, written with the first in full into so many bytes.
pub fn written(bytes: usize) -> Record {
    let mut row = vec![0; STATE_WORDS];
    face::new((0, 0), (0, 0), &mut row);
    Record {
        p: vec![STALE; bytes],
        v: vec![ONE; MOST_VALUES],
        r: row,
        ..Record::default()
    }
}

/// Lists of which none as long takes more bits, written into the bytes for so many values and into one less.
fn largest_written() -> Vec<Record> {
    let mut records = vec![];
    for count in [1, 2, 3, 64] {
        for opening in [Opening::WithFirst, Opening::On(ONE)] {
            let bytes = size::most_bytes(count, opening).expect("within the limit");
            let mut row = vec![0; STATE_WORDS];
            face::new((0, 0), face::opening_words(opening), &mut row);
            records.extend([bytes, bytes - 1].map(|bytes| Record {
                p: vec![STALE; bytes],
                v: size::largest(count, opening),
                r: row.clone(),
                ..Record::default()
            }));
        }
    }
    records
}

/// A stream of the most values, reopened behind the first k.
pub fn reopened(k: u64) -> Record {
    Record {
        x: vec![1, ONE, 0, 0],
        w: vec![MOST_VALUES as u64 / 4, MOST_VALUES as u64, k],
        p: vec![0xAA; MOST_VALUES / 4],
        r: vec![STALE.into(); STATE_WORDS],
        ..Record::default()
    }
}

/// A state at its greatest length, and beyond it.
fn with_length(record: Record, place: usize) -> Vec<Record> {
    let at = |length: u64| {
        let mut record = record.clone();
        record.r[place] = length;
        record
    };
    ABOUT_MOST.map(|length| at(length as u64)).to_vec()
}

/// A record of a call.
pub fn drawn(call: usize, inputs: &mut Inputs) -> Record {
    let record = match call {
        0..4 => of_numbers(call, inputs),
        4..9 => of_streams(call, inputs),
        9..15 => of_pmc_mean(call, inputs),
        15..22 => of_swing(call, inputs),
        22..26 => of_the_choice(call, inputs),
        26..31 => of_parameters(call, inputs),
        31..34 => of_reading(inputs),
        34..38 => of_the_reader(call, inputs),
        38..42 => table::drawn(call, inputs),
        42..44 => of_sizes(inputs),
        _ => rescue::drawn(call, inputs),
    };
    Record { call, ..record }
}

// ---- numbers and memory

/// A bound's two words: one in eight of a kind that there is not.
pub fn bound(inputs: &mut Inputs) -> Vec<u32> {
    let (kind, bits) = face::bound_words(inputs.any_bound());
    match inputs.below(8) {
        0 => vec![3 + inputs.below(3) as u32, bits],
        _ => vec![kind, bits],
    }
}

/// How a stream opens: one in ten in a mode that there is not.
pub fn opening(inputs: &mut Inputs) -> Vec<u32> {
    let (mode, value) = face::opening_words(inputs.opening());
    match inputs.below(10) {
        0 => vec![2 + inputs.below(3) as u32, value],
        _ => vec![mode, value],
    }
}

/// How a stream was opened: one in twelve in a mode that there is not.
pub fn opened_as(inputs: &mut Inputs, (mode, value): Words) -> Vec<u32> {
    vec![if inputs.below(12) == 0 { 2 } else { mode }, value]
}

/// So many bytes in use: one time in twelve one more.
pub fn used_of(inputs: &mut Inputs, bytes: usize) -> u64 {
    bytes as u64 + u64::from(inputs.below(12) == 0)
}

/// Lent memory for so many words: as many, a few more or, one time in five, fewer.
pub fn room<T: Clone>(inputs: &mut Inputs, words: usize, stale: T) -> Vec<T> {
    let length = match inputs.below(5) {
        0 => inputs.below(words as u64 + 1) as usize,
        _ => words + inputs.below(3) as usize,
    };
    vec![stale; length]
}

/// A state with, one time in three, one of its words changed, and one in ten without its last word.
pub fn handed(inputs: &mut Inputs, mut row: Vec<u64>) -> Vec<u64> {
    if inputs.below(3) == 0 {
        let place = inputs.below(row.len() as u64) as usize;
        row[place] = match inputs.below(3) {
            0 => inputs.word(),
            1 => row[place].wrapping_add(1),
            _ => inputs.pick(&[0, 1, 2, 255, MOST_VALUES as u64, 1 << 32, u64::MAX]),
        };
    }
    if inputs.below(10) == 0 {
        row.pop();
    }
    row
}

/// A metadata size, one in five not allowed.
fn metadata(inputs: &mut Inputs) -> u64 {
    match inputs.below(10) {
        0 => 0,
        1 => u64::from(MOST_METADATA) + 1 + inputs.below(3),
        2 => MOST_METADATA.into(),
        _ => 1 + inputs.below(60),
    }
}

// ---- the calls

fn of_numbers(call: usize, inputs: &mut Inputs) -> Record {
    let mut record = Record::default();
    match call {
        0 => record.x = vec![inputs.value()],
        1 => record.w = vec![inputs.wide().to_bits()],
        2 => {
            let real = inputs.value();
            let other = inputs.value();
            let near = real.wrapping_add(inputs.below(1 << 12) as u32);
            record.x = bound(inputs);
            record.x.extend([real, inputs.pick(&[near, other])]);
            record.v = room(inputs, 1, STALE.into());
        }
        _ => {
            record.x = bound(inputs);
            record.w = vec![inputs.wide().to_bits()];
            record.r = room(inputs, 1, STALE.into());
        }
    }
    record
}

/// A stream that was written: its opening, how many values it has, its writer's row and its bytes.
pub fn stream(inputs: &mut Inputs) -> (Words, usize, Vec<u64>, Vec<u8>) {
    let opening = face::opening_words(inputs.opening());
    let count = inputs.below(10) as usize;
    let values = inputs.values(count);
    let mut row = vec![0; STATE_WORDS];
    face::new(face::bound_words(inputs.bound()), opening, &mut row);
    let mut bytes = vec![STALE; 6 * count];
    face::compress_values(&mut row, &values, &mut bytes);
    bytes.truncate(row[8].div_ceil(8) as usize);
    (opening, count, row, bytes)
}

fn of_streams(call: usize, inputs: &mut Inputs) -> Record {
    let (opened, count, row, mut bytes) = stream(inputs);
    let mut record = Record::default();
    match call {
        4 => {
            record.x = bound(inputs);
            record.x.extend(opening(inputs));
            record.r = room(inputs, STATE_WORDS, STALE.into());
        }
        5 => {
            let more = inputs.below(5) as usize;
            record.v = inputs.values(more);
            let spare = inputs.below(6 * more as u64 + 3) as usize;
            record.p = [bytes, vec![STALE; spare]].concat();
            record.r = handed(inputs, row);
        }
        _ => {
            let mut count = count as u64;
            match inputs.below(4) {
                0 => inputs.damage(&mut bytes),
                1 => count += inputs.below(2),
                _ => {}
            }
            record.x = opened_as(inputs, opened);
            record.w = vec![count];
            record.p = bytes;
            let places = if call == 7 { count as usize } else { 1 };
            record.v = room(inputs, places, STALE.into());
        }
    }
    if call == 6 {
        let used = used_of(inputs, record.p.len());
        let k = inputs.below(count as u64 + 1) + 70_000 * u64::from(inputs.below(12) == 0);
        record.x.extend(bound(inputs));
        record.w = vec![used, record.w[0], k];
        record.v = vec![];
        record.r = room(inputs, STATE_WORDS, STALE.into());
    }
    record
}

/// A state after some steps.
fn fitted(inputs: &mut Inputs, words: usize, step: fn(&mut [u64], i64, u32) -> Fault) -> Vec<u64> {
    let mut row = vec![STALE.into(); words];
    let bound = face::bound_words(inputs.bound());
    match words {
        PMC_MEAN_WORDS => fit::pmc_mean_new(bound, &mut row),
        SWING_WORDS => fit::swing_new(bound, &mut row),
        _ => choice::new(bound, &mut row),
    };
    let count = inputs.below(6) as usize;
    let values = inputs.values(count);
    for (time, value) in values.into_iter().enumerate() {
        step(&mut row, 10 * time as i64, value);
    }
    row
}

fn of_pmc_mean(call: usize, inputs: &mut Inputs) -> Record {
    let mut record = Record::default();
    let row = fitted(inputs, PMC_MEAN_WORDS, |row, _, value| {
        fit::pmc_mean_fit_value(row, value)
    });
    match call {
        9 => {
            record.x = bound(inputs);
            record.r = room(inputs, PMC_MEAN_WORDS, STALE.into());
        }
        10 => {
            record.x = vec![inputs.value()];
            record.r = handed(inputs, row);
        }
        11 | 12 => {
            record.s = handed(inputs, row);
            record.v = room(inputs, 1, STALE.into());
            if call == 11 {
                record.w = vec![metadata(inputs)];
            }
        }
        _ => {
            let count = inputs.below(6) as usize;
            let places = if call == 13 { 1 } else { count };
            record.x = vec![inputs.value()];
            record.w = vec![count as u64];
            record.v = room(inputs, places, STALE.into());
        }
    }
    record
}

fn of_swing(call: usize, inputs: &mut Inputs) -> Record {
    let mut record = Record::default();
    let row = fitted(inputs, SWING_WORDS, fit::swing_fit_data_point);
    match call {
        15 => {
            record.x = bound(inputs);
            record.r = room(inputs, SWING_WORDS, STALE.into());
        }
        16 => {
            record.x = vec![inputs.value()];
            record.w = vec![time(inputs)];
            record.r = handed(inputs, row);
        }
        17 | 18 => {
            record.s = handed(inputs, row);
            record.v = room(inputs, call - 16, STALE.into());
            if call == 17 {
                record.w = vec![metadata(inputs)];
            }
        }
        _ => {
            let count = inputs.below(6) as usize;
            let times = inputs.any_times(count + 2);
            let ends = [times[0] as u64, times[count + 1] as u64];
            record.x = vec![inputs.value(), inputs.value()];
            record.w = ends.to_vec();
            match call {
                19 => record.w.push(count as u64),
                _ => record.t = times[1..=count].to_vec(),
            }
            let places = if call == 21 { count } else { 1 };
            record.v = room(inputs, places, STALE.into());
        }
    }
    record
}

/// A time behind those of a state, before them, or out of limit.
fn time(inputs: &mut Inputs) -> u64 {
    let limit = 1i64 << 52;
    let times = [
        60,
        60,
        61,
        1_000,
        limit,
        limit + 1,
        -limit,
        -limit - 1,
        5,
        i64::MAX,
    ];
    inputs.pick(&times) as u64
}

fn of_the_choice(call: usize, inputs: &mut Inputs) -> Record {
    let mut record = Record::default();
    let row = fitted(inputs, MODEL_BUILDER_WORDS, choice::try_to_update_models);
    match call {
        22 => {
            record.x = bound(inputs);
            record.r = room(inputs, MODEL_BUILDER_WORDS, STALE.into());
        }
        23 => {
            record.x = vec![inputs.value()];
            record.w = vec![time(inputs)];
            record.r = handed(inputs, row);
        }
        24 => {
            record.w = vec![metadata(inputs)];
            record.s = handed(inputs, row);
            record.r = room(inputs, SELECTED_MODEL_WORDS, STALE.into());
        }
        _ => {
            let count = inputs.below(7) as usize;
            record.t = inputs.any_times(count);
            record.v = inputs.values(count);
            if inputs.below(8) == 0 {
                record.v.push(0);
            }
            record.x = bound(inputs);
            record.w = vec![metadata(inputs)];
            record.r = room(inputs, SELECTED_MODEL_WORDS, STALE.into());
        }
    }
    record
}

fn of_parameters(call: usize, inputs: &mut Inputs) -> Record {
    let mut record = Record::default();
    // Few values, so that some of them are a segment's least or greatest.
    let values = [
        inputs.value(),
        inputs.value(),
        0x3F80_0000,
        0x4000_0000,
        0x7FC0_0000,
    ];
    let mut any = |count: usize| -> Vec<u32> { (0..count).map(|_| inputs.pick(&values)).collect() };
    match call {
        26 | 27 => {
            record.x = any(call - 23);
            let bytes = if call == 26 { 4 } else { 8 };
            record.p = room(inputs, bytes, STALE);
            record.r = room(inputs, 1, STALE.into());
        }
        28 | 29 => {
            record.x = any(2);
            let any_length = inputs.below(11) as usize;
            let length = inputs.pick(&[0, 1, 4, 5, 8, any_length]);
            record.p = (0..length).map(|_| inputs.word() as u8).collect();
            if length == 5 {
                record.p[0] = inputs.below(5) as u8;
            }
            record.v = room(inputs, call - 27, STALE.into());
        }
        _ => {
            record.x = vec![inputs.below(9) as u32 / 4];
            record
                .x
                .extend([inputs.pick(&values), inputs.pick(&values)]);
            record.x.extend(bound(inputs));
            let count = inputs.pick(&[0, 0, 1, 2, 5]);
            record.v = inputs.values(count);
            record.p = room(inputs, 8, STALE);
            record.q = room(inputs, 6 * count + 1, STALE);
            record.r = room(inputs, SEGMENT_WORDS, STALE.into());
        }
    }
    record
}

/// A segment that was written, with times, of which one in two is damaged.
fn of_reading(inputs: &mut Inputs) -> Record {
    let (model, ends) = (inputs.below(2) as u32, (inputs.reading(), inputs.reading()));
    let ends = match inputs.below(6) {
        0 => (ends.0, inputs.value()),
        1 => (ends.0, f32::INFINITY.to_bits()),
        _ => ends,
    };
    let residuals = inputs.pick(&[0, 1, 3]);
    let values = inputs.values(residuals);
    let (mut p, mut q, mut row) = (vec![0; 8], vec![0; 40], vec![0; SEGMENT_WORDS]);
    let bound = face::bound_words(inputs.bound());
    segments::segment_write((model, ends), bound, &values, &mut p, &mut q, &mut row);
    p.truncate(row[2] as usize);
    q.truncate(row[3] as usize);
    match inputs.below(8) {
        0 => inputs.damage(&mut p),
        1 => inputs.damage(&mut q),
        // A byte of the stream less, one more, and its first code turned.
        2 if residuals > 0 => _ = q.remove(q.len() - 2),
        3 if residuals > 0 => q.insert(q.len() - 1, 0),
        4 if residuals > 0 => q[0] ^= 0xC0,
        _ => {}
    }
    let count = inputs.below(5) as usize + residuals;
    let model = match inputs.below(16) {
        0 => 2,
        _ => model,
    };
    let mut record = Record {
        x: vec![model, row[0] as u32, row[1] as u32],
        t: match inputs.below(4) {
            0 => inputs.any_times(count),
            _ => inputs.times(count),
        },
        p,
        q,
        ..Record::default()
    };
    record.v = room(inputs, count, STALE.into());
    record
}

fn of_the_reader(call: usize, inputs: &mut Inputs) -> Record {
    if call == 37 {
        return of_streams(8, inputs);
    }
    let mut record = Record::default();
    if call == 34 {
        record.x = opening(inputs);
        record.r = room(inputs, READER_WORDS, STALE.into());
        return record;
    }
    let (opened, count, _, mut bytes) = stream(inputs);
    if inputs.flip() {
        inputs.damage(&mut bytes);
    }
    let mut row = vec![0; READER_WORDS];
    reader::open(opened, &mut row);
    for _ in 0..inputs.below(count as u64 + 1) {
        reader::next(&bytes, &mut row, &mut [0]);
    }
    let row = handed(inputs, row);
    record.p = bytes;
    match call {
        35 => {
            record.v = room(inputs, 1, STALE.into());
            record.r = row;
        }
        _ => record.s = row,
    }
    record
}

/// A count of any size up to a few above the limit, one time in ten in a mode that there is not.
fn of_sizes(inputs: &mut Inputs) -> Record {
    let most = inputs.pick(&[8, 1_000, MOST_VALUES as u64 + 4]);
    let mode = opening(inputs)[0];
    sized(inputs.below(most), mode)
}

#[cfg(test)]
mod tests {
    use super::{Record, answered, within_limits};
    use crate::Told;

    /// At its limit a call is accepted, but for the write that lacks a byte or a word.
    #[test]
    fn limits_are_accepted() {
        let answers = |call: usize| -> Vec<Told> {
            let records = within_limits(call).into_iter();
            let records = records.map(|record| Record { call, ..record });
            records.map(|record| answered(&record).0).collect()
        };
        let accepted = [0; 3];
        assert_eq!(answers(5), [accepted, [4, 0, 0]].repeat(9));
        assert_eq!(answers(6), [accepted; 3]);
        for call in [7, 8, 13, 14, 19, 30, 37, 40] {
            assert_eq!(answers(call), [accepted], "call {call}");
        }
        assert_eq!(answers(38), [accepted, [4, 0, 0], [4, 0, 0], accepted]);
        assert_eq!(answers(39), [accepted; 3]);
        assert_eq!(answers(41), [accepted; 2]);
        for call in [42, 43] {
            assert_eq!(answers(call), [accepted; 10]);
        }
        for call in [44, 45] {
            assert_eq!(answers(call), [accepted; 3]);
        }
    }
}
