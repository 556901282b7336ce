//! Inputs of the calls that go on from whatever arrived: uploads that were cut.

use crate::draw::{self, STALE, bound, opened_as, room, used_of};
use crate::record::Record;
use crate::table;
use modelardb_rattle::ffi::{ENTRY_WORDS, STATE_WORDS, Words};
use oracle::paper::MOST_VALUES;
use oracle::paper::place_table::entries_for;
use side_by_side::face;
use side_by_side::inputs::{Inputs, ONE, TWO};

/// With a table.
const TABLED: usize = 45;

/// Lossless, of these bytes: how many are in use, and the limit. With a table, its words are as many as that asks for, and
/// the number of entries in use is any.
pub fn record(call: usize, opening: Words, p: Vec<u8>, w: [u64; 2]) -> Record {
    let words = ENTRY_WORDS * entries_for(w[1] as usize);
    Record {
        call,
        x: vec![opening.0, opening.1, 0, 0],
        w: w.to_vec(),
        p,
        r: vec![STALE.into(); STATE_WORDS],
        u: match call {
            TABLED => table::stale(STALE.into(), words),
            _ => vec![],
        },
        ..Record::default()
    }
}

/// The most values, all the same: all of them, without their last byte, and a few of them.
pub fn within_limits(call: usize) -> Vec<Record> {
    let (bytes, most) = (MOST_VALUES as u64 / 4, MOST_VALUES as u64);
    let repeats = |w| record(call, (1, ONE), vec![0xAA; MOST_VALUES / 4], w);
    [[bytes, most], [bytes - 1, most], [bytes, 9]]
        .map(repeats)
        .to_vec()
}

/// Short streams cut at every byte: codes of all kinds, and repeats beyond the first entry of a table.
pub fn cuts(call: usize) -> Vec<Record> {
    if call < 44 {
        return vec![];
    }
    let kinds = [ONE, ONE, TWO, ONE, 0xFFC1_2345, 0xFFC1_2345, 0x7FC0_0000];
    let mut records = vec![];
    for mode in [0, 1] {
        for values in [&kinds[..], &[ONE; 66]] {
            let (bytes, count) = (written((mode, ONE), values), values.len() as u64);
            for used in 0..=bytes.len() as u64 {
                let cut = |limit| record(call, (mode, ONE), bytes.clone(), [used, limit]);
                records.extend([count, count + 1, count / 2].map(cut));
            }
        }
    }
    records
}

/// The bytes of a lossless stream.
fn written(opening: Words, values: &[u32]) -> Vec<u8> {
    let (mut row, mut bytes) = ([0; STATE_WORDS], vec![0; 6 * values.len()]);
    face::new((0, 0), opening, &mut row);
    face::compress_values(&mut row, values, &mut bytes);
    bytes.truncate(row[8].div_ceil(8) as usize);
    bytes
}

/// A record of a call: an upload of which, one time in two, only the first bytes are handed in, and one in four damaged.
pub fn drawn(call: usize, inputs: &mut Inputs) -> Record {
    let (opening, count, mut bytes) = match call {
        TABLED => {
            let begun = table::begun(inputs, 0);
            (begun.opening, begun.count, begun.bytes)
        }
        _ => {
            let (opening, count, _, bytes) = draw::stream(inputs);
            (opening, count, bytes)
        }
    };
    if inputs.below(4) == 0 {
        inputs.damage(&mut bytes);
    }
    let used = match inputs.below(2) {
        0 => inputs.below(bytes.len() as u64 + 1),
        _ => used_of(inputs, bytes.len()),
    };
    let limit = inputs.pick(&[count, count, count, count + 1, count + 3, count / 2]);
    Record {
        x: [opened_as(inputs, opening), bound(inputs)].concat(),
        r: room(inputs, STATE_WORDS, STALE.into()),
        u: match call {
            TABLED => {
                let words = room(inputs, ENTRY_WORDS * entries_for(limit), STALE.into());
                table::in_use(inputs.below(4) as usize, &words)
            }
            _ => vec![],
        },
        ..record(call, opening, bytes, [used, limit as u64])
    }
}
