//! Inputs of the place table's calls. Most values are repeats, so that a line is short though there are entries.

use crate::draw::{self, STALE, bound, handed, opened_as, room, used_of};
use crate::record::Record;
use modelardb_rattle::ffi::{ENTRY_WORDS, STATE_WORDS, VALUES_PER_ENTRY, Words};
use oracle::paper::MOST_VALUES;
use oracle::paper::macaque_v::Opening;
use oracle::paper::models::ErrorBound::Lossless;
use oracle::paper::place_table::{entries_for, table_of};
use side_by_side::face::{self, table};
use side_by_side::inputs::{Inputs, ONE};

/// The table of repeats of 1.0, with the first in full, mode 0, or on 1.0, mode 1.
pub fn of_repeats(mode: u32, count: usize) -> Vec<u64> {
    let opening = match mode {
        0 => Opening::WithFirst,
        _ => Opening::On(ONE),
    };
    let own = table_of(Lossless, opening, &vec![ONE; count]).expect("an allowed bound");
    in_use(own.len(), &own.concat())
}

/// A list of a record: how many entries are in use, and the words.
pub fn in_use(entries: usize, words: &[u64]) -> Vec<u64> {
    [&[entries as u64], words].concat()
}

/// How many words the entries of the most values take.
const MOST_WORDS: usize = ENTRY_WORDS * MOST_VALUES.div_ceil(VALUES_PER_ENTRY);

/// A table of so many stale words.
pub fn stale(entries: usize, words: usize) -> Vec<u64> {
    in_use(entries, &vec![STALE.into(); words])
}

/// As many values as a call takes, all the same; and a write from a state of length 0 that holds a last value.
pub fn within_limits(call: usize) -> Vec<Record> {
    let all = entries_for(MOST_VALUES);
    match call {
        // The bytes and the entries that it takes, a byte less, and a word less.
        38 => [(4, MOST_WORDS), (3, MOST_WORDS), (4, MOST_WORDS - 1)]
            .map(|(more, words)| Record {
                u: stale(0, words),
                ..draw::written(MOST_VALUES / 4 + more)
            })
            .into_iter()
            .chain([before_a_raw_value()])
            .collect(),
        39 => [0, 1, MOST_VALUES as u64]
            .map(|k| Record {
                u: stale(all, MOST_WORDS),
                ..draw::reopened(k)
            })
            .to_vec(),
        40 => vec![Record {
            x: vec![1, ONE],
            w: vec![MOST_VALUES as u64],
            p: vec![0xAA; MOST_VALUES / 4],
            u: of_repeats(1, MOST_VALUES),
            ..Record::default()
        }],
        _ => [MOST_VALUES - 12, 0].map(up_to_the_end).to_vec(),
    }
}

/// A state of length 0 that holds another last value than +0, though its first value is stored in full.
fn before_a_raw_value() -> Record {
    let mut record = draw::written(4);
    record.v.truncate(1);
    record.r[4] = ONE.into();
    Record {
        u: stale(0, ENTRY_WORDS),
        ..record
    }
}

/// The repeats from p on, by a table of which only the entry that they are read from is theirs.
fn up_to_the_end(p: usize) -> Record {
    let (most, entry) = (MOST_VALUES as u64, p / VALUES_PER_ENTRY);
    let mut u = stale(entries_for(MOST_VALUES), MOST_WORDS);
    let place = 2 * (VALUES_PER_ENTRY * entry) as u64;
    u[1 + ENTRY_WORDS * entry..][..ENTRY_WORDS].copy_from_slice(&[place, ONE.into(), 255, 0]);
    Record {
        x: vec![1, ONE],
        w: vec![most, p as u64, most],
        p: vec![0xAA; MOST_VALUES / 4],
        v: vec![STALE.into(); MOST_VALUES - p],
        u,
        ..Record::default()
    }
}

/// A writer with its table: how its stream opens, the row, the buffer and the table's words.
pub struct Begun {
    pub opening: Words,
    row: Vec<u64>,
    pub bytes: Vec<u8>,
    words: Vec<u64>,
    entries: usize,
    /// How many values are written, and those that are not.
    pub count: usize,
    rest: Vec<u32>,
}

/// A stream of repeats but for a few values, of which some at the end are not written yet.
pub fn begun(inputs: &mut Inputs, rest: usize) -> Begun {
    let opening = face::opening_words(inputs.opening());
    let count = inputs.pick(&[0, 1, 9, 63, 64, 65, 66, 128, 129, 130]);
    let mut values = vec![inputs.value(); count + rest];
    for _ in 0..inputs.below(4).min(values.len() as u64) {
        let at = inputs.below(values.len() as u64) as usize;
        values[at] = inputs.value();
    }
    let mut row = vec![0; STATE_WORDS];
    face::new(face::bound_words(inputs.bound()), opening, &mut row);
    let (mut bytes, mut entries) = (vec![STALE; 6 * count], 0);
    let mut words = vec![STALE.into(); ENTRY_WORDS * entries_for(count)];
    let rest = values.split_off(count);
    table::compress_values(&mut row, &values, &mut bytes, &mut words, &mut entries);
    bytes.truncate(row[8].div_ceil(8) as usize);
    Begun {
        opening,
        row,
        bytes,
        words,
        entries,
        count,
        rest,
    }
}

impl Begun {
    /// The table with, one time in four, a word changed, and one time in four another number of entries or words.
    fn table(&self, inputs: &mut Inputs) -> Vec<u64> {
        let (mut words, mut entries) = (self.words.clone(), self.entries);
        if inputs.below(4) == 0 && !words.is_empty() {
            let at = inputs.below(words.len() as u64) as usize;
            let zeros = inputs.below(33);
            let other = words[at].wrapping_add(1);
            words[at] = inputs.pick(&[other, 0, zeros, 255, 1 << 32, u64::MAX]);
        }
        match inputs.below(12) {
            0 => entries += 1,
            1 => entries = entries.saturating_sub(1),
            2 => _ = words.pop(),
            _ => {}
        }
        in_use(entries, &words)
    }

    /// How many values are told to be there: one time in eight another number.
    fn told(&self, inputs: &mut Inputs) -> u64 {
        self.count as u64 + u64::from(inputs.below(8) == 0)
    }
}

/// A record of a call.
pub fn drawn(call: usize, inputs: &mut Inputs) -> Record {
    let rest = if call == 38 {
        inputs.pick(&[0, 1, 3, 66])
    } else {
        0
    };
    let mut begun = begun(inputs, rest);
    if call != 38 && inputs.below(4) == 0 {
        inputs.damage(&mut begun.bytes);
    }
    match call {
        38 => of_writing(&begun, inputs),
        39 => of_reopening(&begun, inputs),
        40 => Record {
            x: opened_as(inputs, begun.opening),
            w: vec![begun.told(inputs)],
            u: begun.table(inputs),
            p: begun.bytes,
            ..Record::default()
        },
        _ => of_ranges(&begun, inputs),
    }
}

fn of_writing(begun: &Begun, inputs: &mut Inputs) -> Record {
    let mut u = begun.table(inputs);
    let new = entries_for(begun.count + begun.rest.len()) - begun.entries;
    u.extend(room(inputs, ENTRY_WORDS * new, u64::from(STALE)));
    let spare = inputs.below(2 * begun.rest.len() as u64 + 12) as usize;
    Record {
        p: [&begun.bytes[..], &vec![STALE; spare]].concat(),
        v: begun.rest.clone(),
        r: handed(inputs, begun.row.clone()),
        u,
        ..Record::default()
    }
}

fn of_reopening(begun: &Begun, inputs: &mut Inputs) -> Record {
    let used = used_of(inputs, begun.bytes.len());
    let k = inputs.below(begun.count as u64 + 1) + 70_000 * u64::from(inputs.below(12) == 0);
    Record {
        x: [opened_as(inputs, begun.opening), bound(inputs)].concat(),
        w: vec![used, begun.told(inputs), k],
        p: begun.bytes.clone(),
        r: room(inputs, STATE_WORDS, STALE.into()),
        u: begun.table(inputs),
        ..Record::default()
    }
}

/// A range of up to ten values, one in eight with its ends the wrong way round.
fn of_ranges(begun: &Begun, inputs: &mut Inputs) -> Record {
    let count = begun.told(inputs);
    let p = inputs.below(count + 1);
    let q = p + inputs.below((count - p).min(10) + 1);
    let asked = match inputs.below(8) {
        0 => [q, p],
        1 => [p, count + 1],
        _ => [p, q],
    };
    Record {
        x: opened_as(inputs, begun.opening),
        w: [&[count], &asked[..]].concat(),
        v: room(inputs, (q - p) as usize, STALE.into()),
        u: begun.table(inputs),
        p: begun.bytes.clone(),
        ..Record::default()
    }
}
