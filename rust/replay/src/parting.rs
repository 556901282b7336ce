//! Readings at the bound, in each call that tests one, and models whose costs in f32 tie, in both calls that choose:
//! document 01's first rules answer every one of these otherwise, so that a library which follows them is seen.

use crate::draw::STALE;
use crate::record::Record;
use modelardb_rattle::ffi::{
    ENTRY_WORDS, MODEL_BUILDER_WORDS, PMC_MEAN_WORDS, SEGMENT_WORDS, SELECTED_MODEL_WORDS,
    STATE_WORDS, Words,
};
use oracle::paper::models::ErrorBound::{self, Absolute, Relative};
use side_by_side::face::{self, choice, fit};
use side_by_side::inputs::{ONE, TWO};

/// A bound, a value that stands before a reading and would stand for it, and the reading.
const KEPT: [(ErrorBound, [f32; 2]); 6] = [
    (Absolute(16_777_216.0), [-1.0, 16_777_216.0]),
    (Relative(28.0), [18.0, 25.0]),
    (Relative(7.0), [93.0, 100.0]),
    (Relative(15.0), [17.0, 20.0]),
    (Relative(30.0), [13.0, 10.0]),
    (Relative(60.0), [2.0, 5.0]),
];

/// A bound, and two readings of which the first is at it from the average of both.
const TAKEN: [(ErrorBound, [f32; 2]); 5] = [
    (Relative(28.0), [25.0, 39.0]),
    (Relative(7.0), [100.0, 114.0]),
    (Relative(15.0), [20.0, 26.0]),
    (Relative(30.0), [10.0, 16.0]),
    (Relative(60.0), [5.0, 11.0]),
];

/// M, and how many values PMC-Mean and Swing stand for: the fewest, those with the least M, some between, and those with
/// the greatest M and product.
const TIED: [(u64, [u64; 2]); 5] = [
    (2_948, [2_947, 2_948]),
    (190, [47_879, 48_131]),
    (1_000, [13_999, 14_013]),
    (10_000, [9_992, 9_993]),
    (65_535, [65_534, 65_535]),
];

/// The records of a call.
pub fn records(call: usize) -> Vec<Record> {
    let of = |lists: &[(ErrorBound, [f32; 2])]| -> Vec<Record> {
        let of_list = |&(bound, values): &(ErrorBound, [f32; 2])| {
            let record = record(call, face::bound_words(bound), values.map(f32::to_bits));
            Record { call, ..record }
        };
        lists.iter().map(of_list).collect()
    };
    match call {
        2 | 5 | 30 | 38 => of(&KEPT),
        10 | 23 => of(&TAKEN),
        24 => TIED.map(finished).to_vec(),
        25 => [of(&TAKEN), vec![listed()]].concat(),
        _ => vec![],
    }
}

/// The choice of a builder with such lengths.
fn finished((m, [pmc_mean, swing]): (u64, [u64; 2])) -> Record {
    let mut row = after_one(24, (0, 0), ONE);
    choice::try_to_update_models(&mut row, 1, TWO);
    row[PMC_MEAN_WORDS - 2] = pmc_mean;
    row[MODEL_BUILDER_WORDS - 2] = swing;
    Record {
        call: 24,
        w: vec![m],
        r: vec![STALE.into(); SELECTED_MODEL_WORDS],
        s: row,
        ..Record::default()
    }
}

/// The choice over a list of which the models take the first of such lengths. Its values are equal but for the last, so
/// that the record is short: that one is too far from the average, and not from the highest line.
fn listed() -> Record {
    let (m, [pmc_mean, swing]) = TIED[0];
    let mut values = vec![0; pmc_mean as usize];
    values.push(1.5f32.to_bits());
    let (kind, bound) = face::bound_words(Absolute(1.0));
    Record {
        call: 25,
        x: vec![kind, bound],
        w: vec![m],
        t: (0..swing as i64).collect(),
        v: values,
        r: vec![STALE.into(); SELECTED_MODEL_WORDS],
        ..Record::default()
    }
}

fn record(call: usize, (kind, bound): Words, [first, second]: [u32; 2]) -> Record {
    let words = |count| vec![STALE.into(); count];
    let record = Record::default();
    match call {
        2 => Record {
            x: vec![kind, bound, second, first],
            v: vec![STALE.into()],
            ..record
        },
        5 | 38 => Record {
            v: vec![first, second],
            p: vec![STALE; 12],
            r: writer((kind, bound)),
            u: match call {
                38 => [vec![0], words(ENTRY_WORDS)].concat(),
                _ => vec![],
            },
            ..record
        },
        10 | 23 => Record {
            x: vec![second],
            w: if call == 23 { vec![5] } else { vec![] },
            r: after_one(call, (kind, bound), first),
            ..record
        },
        25 => Record {
            x: vec![kind, bound],
            w: vec![12],
            t: vec![0, 5],
            v: vec![first, second],
            r: words(SELECTED_MODEL_WORDS),
            ..record
        },
        _ => Record {
            x: vec![0, first, first, kind, bound],
            v: vec![second],
            p: vec![STALE; 8],
            q: vec![STALE; 8],
            r: words(SEGMENT_WORDS),
            ..record
        },
    }
}

/// The row of a writer that stores its first value in full.
fn writer(bound: Words) -> Vec<u64> {
    let mut row = vec![0; STATE_WORDS];
    face::new(bound, (0, 0), &mut row);
    row
}

/// The row of PMC-Mean, or of a builder, after its first reading.
fn after_one(call: usize, bound: Words, first: u32) -> Vec<u64> {
    if call == 10 {
        let mut row = vec![0; PMC_MEAN_WORDS];
        fit::pmc_mean_new(bound, &mut row);
        fit::pmc_mean_fit_value(&mut row, first);
        return row;
    }
    let mut row = vec![0; MODEL_BUILDER_WORDS];
    choice::new(bound, &mut row);
    choice::try_to_update_models(&mut row, 0, first);
    row
}

#[cfg(test)]
mod tests {
    use super::records;
    use crate::CALLS;
    use crate::calls::answered;
    use oracle::paper::rules;

    #[test]
    fn the_first_rules_answer_each_otherwise() {
        let mut count = 0;
        for record in (0..CALLS.len()).flat_map(records) {
            let line = || record.line(&answered(&record));
            assert_eq!(answered(&record).0, [0; 3], "{}", line());
            assert_ne!(line(), rules::as_first(line));
            count += 1;
        }
        assert_eq!(count, 45);
    }
}
