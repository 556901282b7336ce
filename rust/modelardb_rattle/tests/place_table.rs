//! The safe face of the place table: what it holds, what a refusal leaves, and ranges beside the whole reading.

use modelardb_rattle::macaque_v::grid_bits;
use modelardb_rattle::{ErrorBound, MacaqueV, Opening, PlaceTable, Refusal, TabledWriter};
use std::ops::Range;

const LOSSLESS: ErrorBound = ErrorBound::Lossless;
const FIRST: Opening = Opening::First;

/// So many readings that rise, fall and stay.
fn readings(count: usize) -> Vec<f32> {
    let reading =
        |number: usize| 20.0 + [0.0, 0.25, 0.25, 1.5, -0.5][number % 5] + number as f32 / 64.0;
    (0..count).map(reading).collect()
}

/// A stream of so many readings with its table.
struct Night {
    bytes: Vec<u8>,
    count: usize,
    opening: Opening,
    table: PlaceTable,
}

impl Night {
    fn new(count: usize, error_bound: ErrorBound, opening: Opening) -> Self {
        let mut bytes = vec![0; 6 * count];
        let mut writer = TabledWriter::new(error_bound, opening).expect("an allowed bound");
        let written = writer.compress_values(&readings(count), &mut bytes);
        written.expect("room for every value");
        let (writer, table) = writer.into_parts();
        bytes.truncate(writer.bytes_used());
        Self {
            bytes,
            count,
            opening,
            table,
        }
    }

    fn check(&self, table: &PlaceTable) -> Result<(), Refusal> {
        table.check(&self.bytes, self.count, self.opening)
    }

    fn range(&self, values: Range<usize>) -> Result<Vec<u32>, Refusal> {
        let Self { bytes, count, .. } = self;
        self.table.range_bits(bytes, *count, self.opening, values)
    }
}

#[test]
fn every_range_is_that_part_of_the_whole_reading() {
    for opening in [FIRST, Opening::On(20.0)] {
        for bound in [
            LOSSLESS,
            ErrorBound::Absolute(0.3),
            ErrorBound::Relative(2.0),
        ] {
            let night = Night::new(130, bound, opening);
            assert_eq!(night.check(&night.table), Ok(()));
            assert_eq!(night.table.entries(), 3);
            let mut all = vec![0; night.count];
            grid_bits(&night.bytes, night.count, opening, &mut all).expect("a stream");
            for q in 0..=night.count {
                for p in 0..=q {
                    assert_eq!(night.range(p..q), Ok(all[p..q].to_vec()), "{p}..{q}");
                }
            }
        }
    }
}

#[test]
fn a_table_does_not_change_what_is_written() {
    let values = readings(200);
    let (mut with, mut without) = ([0xFF; 1200], [0xFF; 1200]);
    let mut tabled = TabledWriter::new(LOSSLESS, FIRST).expect("an allowed bound");
    let mut plain = MacaqueV::new(LOSSLESS, FIRST).expect("an allowed bound");
    for part in values.chunks(70) {
        assert_eq!(tabled.compress_values(part, &mut with), Ok(()));
        assert_eq!(plain.compress_values(part, &mut without), Ok(()));
        assert_eq!((tabled.writer(), with), (&plain, without));
        let entries = PlaceTable::entries_for(plain.length());
        assert_eq!(tabled.table().words().len(), 4 * entries);
    }
    let night = Night::new(200, LOSSLESS, FIRST);
    assert_eq!(tabled.table(), &night.table);
}

#[test]
fn a_refused_write_changes_nothing() {
    let mut writer = TabledWriter::new(LOSSLESS, FIRST).expect("an allowed bound");
    let mut buffer = [0xA5; 32];
    writer
        .compress_values(&[1.0; 64], &mut buffer)
        .expect("room");
    let (before, bytes) = (writer.clone(), buffer);
    for (values, size, refusal) in [
        (readings(65), buffer.len(), Refusal::OutputTooShort),
        (
            vec![1.0; MacaqueV::MOST_VALUES],
            buffer.len(),
            Refusal::OverLimit,
        ),
        (vec![1.0], 3, Refusal::StateNotAllowed),
    ] {
        let refused = writer.compress_values(&values, &mut buffer[..size]);
        assert_eq!((refused, buffer), (Err(refusal), bytes));
        assert_eq!(writer, before);
    }
    assert_eq!(writer.compress_values(&[], &mut buffer), Ok(()));
    assert_eq!(writer, before);
}

#[test]
fn reopened_at_any_value_it_goes_on_as_one_run() {
    let (count, bound) = (140, ErrorBound::Absolute(0.3));
    let (night, values) = (Night::new(count, bound, FIRST), readings(count));
    for k in 0..=count {
        let mut buffer = [&night.bytes[..], &[0; 8]].concat();
        let used = night.bytes.len();
        let mut on = TabledWriter::reopen(&mut buffer, used, count, k, FIRST, bound, &night.table)
            .expect("a stream of ours");
        assert_eq!(on.table().entries(), PlaceTable::entries_for(k));
        on.compress_values(&values[k..], &mut buffer).expect("room");
        assert_eq!(
            (on.table(), &buffer[..used]),
            (&night.table, &night.bytes[..])
        );
    }
}

#[test]
fn a_refused_reopening_changes_nothing() {
    let night = Night::new(65, LOSSLESS, FIRST);
    let reopen = |used, count, k, bound, words: &[u64]| {
        let mut buffer = night.bytes.clone();
        let table = PlaceTable::from_words(words.to_vec());
        let answer = TabledWriter::reopen(&mut buffer, used, count, k, FIRST, bound, &table);
        assert_eq!(buffer, night.bytes);
        answer.map(|writer| writer.table().entries())
    };
    let (used, words) = (night.bytes.len(), night.table.words());
    let (disagree, no_match) = (Refusal::CountsDisagree, Refusal::TableDoesNotMatch);
    let no_bound = ErrorBound::Absolute(0.0);
    for (answer, refusal) in [
        (
            reopen(used, 65, 65, no_bound, &[]),
            Refusal::BoundNotAllowed,
        ),
        (reopen(used, 65_537, 65, LOSSLESS, &[]), Refusal::OverLimit),
        (reopen(used, 65, 66, LOSSLESS, words), disagree),
        (reopen(used + 1, 65, 65, LOSSLESS, words), disagree),
        (reopen(used, 65, 65, LOSSLESS, &words[..7]), disagree),
        (reopen(used, 65, 65, LOSSLESS, &words[..4]), no_match),
        (reopen(used, 64, 64, LOSSLESS, words), no_match),
    ] {
        assert_eq!(answer, Err(refusal));
    }
    let cut = reopen(used - 1, 65, 0, LOSSLESS, words);
    assert!(matches!(cut, Err(Refusal::EndsEarly { value: 64, .. })));
    assert_eq!(reopen(used, 65, 65, LOSSLESS, words), Ok(2));
}

#[test]
fn the_check_tells_a_table_from_any_other() {
    let night = Night::new(200, LOSSLESS, FIRST);
    let words = night.table.words();
    let check = |words: Vec<u64>| night.check(&PlaceTable::from_words(words));
    let no_match = Err(Refusal::TableDoesNotMatch);
    assert_eq!(check(words.to_vec()), Ok(()));
    for word in 0..words.len() {
        let mut other = words.to_vec();
        other[word] ^= 1;
        assert_eq!(check(other), no_match, "word {word}");
    }
    assert_eq!(check(words[4..].to_vec()), no_match);
    assert_eq!(
        check([&words[4..8], &words[..4], &words[8..]].concat()),
        no_match
    );
    assert_eq!(check([words, &words[..4]].concat()), no_match);
    assert_eq!(check(words[..15].to_vec()), Err(Refusal::CountsDisagree));
    let other = Night::new(200, ErrorBound::Absolute(0.5), FIRST);
    assert_eq!(night.check(&other.table), no_match);
}

#[test]
fn a_range_is_refused_before_anything_is_read() {
    let night = Night::new(130, LOSSLESS, Opening::On(20.0));
    let backwards = Range { start: 9, end: 8 };
    for values in [backwards, 130..131, 0..usize::MAX, 131..131] {
        assert_eq!(night.range(values), Err(Refusal::CountsDisagree));
    }
    let Night { bytes, opening, .. } = &night;
    let of = |words: &[u64], count, values| {
        PlaceTable::from_words(words.to_vec()).range(bytes, count, *opening, values)
    };
    let words = night.table.words();
    assert_eq!(of(&[], 130, 130..130), Ok(vec![]));
    assert_eq!(of(words, 65_537, 0..1), Err(Refusal::OverLimit));
    assert_eq!(
        of(&words[..8], 130, 128..129),
        Err(Refusal::TableDoesNotMatch)
    );
    assert_eq!(of(&words[..9], 130, 0..1), Err(Refusal::CountsDisagree));
    // A place behind the last bit is no place; at the last bit nothing is left.
    let bits = 8 * bytes.len();
    let at = |place: usize| of(&[place as u64, 0, 255, 0], 130, 0..1);
    assert_eq!(at(bits + 1), Err(Refusal::TableDoesNotMatch));
    let ended = Refusal::EndsEarly {
        value: 0,
        place: bits,
    };
    assert_eq!(at(bits), Err(ended));
    // A window may stand before value 0 too.
    assert_eq!(
        of(&[0, 0, 32, 0], 130, 0..1),
        Err(Refusal::TableDoesNotMatch)
    );
    assert!(of(&[0, 0, 31, 0], 130, 0..1).is_ok());
}

#[test]
fn what_stands_behind_a_range_is_not_looked_at() {
    let night = Night::new(200, LOSSLESS, FIRST);
    let words = night.table.words();
    let place = |entry: usize| words[4 * entry] as usize;
    let hour = night.range(70..100).expect("a range of ours");
    // Every bit before the entry of value 64, and every byte behind that of value 128, may be another.
    let mut bytes = night.bytes.clone();
    bytes[..place(1) / 8].fill(0xFF);
    bytes.truncate(place(2).div_ceil(8));
    let read = night.table.range_bits(&bytes, 200, FIRST, 70..100);
    assert_eq!(read, Ok(hour));
    assert!(night.table.range_bits(&bytes, 200, FIRST, 63..100).is_err());
}

#[test]
fn a_table_is_shown_by_its_entries() {
    let table = PlaceTable::from_words(vec![0, 0, 255, 0, 158, 1 << 32, 31, 0, 9]);
    assert_eq!(
        format!("{table:?}"),
        "{0: Entry { place: 0, last_value: 0.0 (00000000), window: (255, 0) }, \
         64: Entry { place: 158, last_value: 4294967296, window: (31, 0) }, \
         128: cut off [9]}"
    );
}
