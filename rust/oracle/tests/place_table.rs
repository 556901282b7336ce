//! The smallest inputs of our readings of the place table.

use oracle::paper::macaque_v::{MacaqueV, Opening};
use oracle::paper::models::ErrorBound::{Absolute, Lossless};
use oracle::paper::place_table::{Entry, Reopening, check, compress_values, range, table_of};
use oracle::paper::{Fault, Read};

const ONE: u32 = 0x3F80_0000;
const ON_ONE: Opening = Opening::On(ONE);
/// "The opening window is leading 255, trailing 0."
const OPENING: (u64, u64) = (255, 0);
/// The first of 65 repeats of 1.0, opened on it: at place 0, and the one at 64 behind 128 bits.
const REPEATS: [u64; 8] = [0, ONE as u64, 255, 0, 128, ONE as u64, 255, 0];

/// 65 repeats: two bits each, and six of padding.
fn repeats() -> Vec<u8> {
    let mut bytes = vec![0xAA; 17];
    bytes[16] = 0x80;
    bytes
}

/// Refused at a value and a place.
fn refused<T>(number: u32, value: usize, place: usize) -> Read<T> {
    Err(Fault {
        number,
        value,
        place,
    })
}

/// Refused without.
fn alone<T>(number: u32) -> Read<T> {
    refused(number, 0, 0)
}

/// Values of the 65 repeats, into so many places.
fn drawn(table: &[u64], entries: usize, (p, q): (usize, usize), room: usize) -> Read<Vec<u32>> {
    let (bytes, mut out) = (repeats(), vec![7; room]);
    range((&bytes, 65, ON_ONE), (table, entries), p..q, &mut out).map(|()| out)
}

/// A range that begins at value 0, on a changed entry 0.
fn from_entry(entry: Entry, bytes: &[u8]) -> Read<Vec<u32>> {
    let mut out = [7; 1];
    range((bytes, 1, ON_ONE), (&entry, 1), 0..1, &mut out).map(|()| out.to_vec())
}

#[test]
fn an_entry_is_what_stands_before_its_value() {
    let values = vec![ONE; 65];
    let entry = |place, last: u32, (leading, trailing)| [place, last.into(), leading, trailing];
    let repeats = [entry(0, ONE, OPENING), entry(128, ONE, OPENING)];
    assert_eq!(table_of(Lossless, ON_ONE, &values).unwrap(), repeats);
    // With a first value entry 0 is that of a fresh state: place 0, +0 and the opening window.
    let first = table_of(Lossless, Opening::WithFirst, &values).unwrap();
    assert_eq!(first, [entry(0, 0, OPENING), entry(158, ONE, OPENING)]);
    // So too where a state of length 0 holds another last value.
    let fresh = MacaqueV::new(Lossless, Opening::WithFirst).unwrap();
    let handed_in = MacaqueV {
        last_value: ONE,
        ..fresh
    };
    let (mut bytes, mut words) = ([0; 4], [9; 4]);
    assert!(compress_values(handed_in, &[ONE], &mut bytes, &mut words, 0).is_ok());
    assert_eq!(words, entry(0, 0, OPENING));
    assert_eq!(check(&bytes, 1, Opening::WithFirst, &words, 1), Ok(()));
    // The window before value 64, not the one that it sets.
    let last_two = |other: u32| [vec![ONE; 63], vec![ONE ^ 1, other]].concat();
    let table = table_of(Lossless, ON_ONE, &last_two(ONE ^ 0x8001)).unwrap();
    assert_eq!(table[1], entry(126 + 14, ONE ^ 1, (31, 0)));
    // A value that is kept, not the input.
    let kept = table_of(Absolute(1.0), ON_ONE, &last_two(ONE)).unwrap();
    assert_eq!(kept[1], entry(128, ONE, OPENING));
    assert_eq!(table_of(Lossless, ON_ONE, &[]).unwrap(), [[0; 4]; 0]);
    assert_eq!(table_of(Absolute(0.0), ON_ONE, &[]), Err(1));
}

#[test]
fn no_values_are_answered_whatever_the_table() {
    for p in [0, 1, 64, 65] {
        assert_eq!(drawn(&[], 0, (p, p), 0), Ok(vec![]));
        assert_eq!(drawn(&[9; 3], usize::MAX, (p, p), 1), Ok(vec![7]));
    }
    assert_eq!(drawn(&[], 0, (66, 66), 0), alone(12));
    let (p, q) = (66, 65);
    let most = range((&[], 65_537, ON_ONE), (&[], 0), p..q, &mut []);
    assert_eq!(most, alone(3));
}

#[test]
fn a_range_is_that_part_of_the_reading() {
    assert_eq!(drawn(&REPEATS, 2, (63, 65), 3), Ok(vec![ONE, ONE, 7]));
    assert_eq!(drawn(&REPEATS, 2, (64, 65), 1), Ok(vec![ONE]));
    // One entry is looked at: another may be wrong, or missing.
    assert_eq!(drawn(&REPEATS[..7], 1, (0, 65), 65), Ok(vec![ONE; 65]));
    let late = [[9; 4], [128, 7, 255, 0]].concat();
    assert_eq!(drawn(&late, 2, (64, 65), 1), Ok(vec![7]));
}

#[test]
fn with_a_first_value_entry_0_alone_begins_at_the_raw_one() {
    let values = vec![ONE; 65];
    let mut buffer = [0; 24];
    let fresh = MacaqueV::new(Lossless, Opening::WithFirst).unwrap();
    let state = fresh.compress_values(&values, &mut buffer).unwrap();
    let bytes = &buffer[..state.place.div_ceil(8)];
    let table = table_of(Lossless, Opening::WithFirst, &values).unwrap();
    for (p, value) in [(0, ONE), (63, ONE), (64, ONE)] {
        let mut out = [0; 2];
        let stream = (bytes, 65, Opening::WithFirst);
        let words = table.concat();
        assert_eq!(range(stream, (&words, 2), p..p + 1, &mut out), Ok(()));
        assert_eq!(out, [value, 0]);
    }
    // Entry 0 at another place: 32 bits from there.
    let mut out = [0];
    let stream = (bytes, 65, Opening::WithFirst);
    let moved = [8, 0, 255, 0];
    assert_eq!(range(stream, (&moved, 1), 0..1, &mut out), Ok(()));
    assert_eq!(out, [0x8000_00AA]);
}

#[test]
fn the_entry_that_a_range_starts_from() {
    let one = u64::from(ONE);
    assert_eq!(from_entry([0, one, 255, 0], &[0x80]), Ok(vec![ONE]));
    // A place equal to the stream's bits is not beyond them.
    assert_eq!(from_entry([8, one, 255, 0], &[0x80]), refused(5, 0, 8));
    assert_eq!(from_entry([9, one, 255, 0], &[0x80]), alone(13));
    assert_eq!(from_entry([u64::MAX, one, 255, 0], &[0x80]), alone(13));
    // A last value of more than 32 bits is none.
    assert_eq!(from_entry([0, 1 << 32, 255, 0], &[0x80]), alone(13));
    assert_eq!(from_entry([0, 0xFFFF_FFFF, 255, 0], &[0x80]), Ok(vec![!0]));
    for window in [
        (255, 1),
        (254, 0),
        (16, 16),
        (0, 32),
        (256, 0),
        (0, 1 << 63),
    ] {
        assert_eq!(from_entry([0, one, window.0, window.1], &[0x80]), alone(13));
    }
    // Entry 0 may hold a window.
    for (leading, value) in [(31, ONE ^ 1), (30, ONE ^ 2)] {
        assert_eq!(from_entry([0, one, leading, 0], &[0x40]), Ok(vec![value]));
    }
    assert_eq!(from_entry([0, one, 255, 0], &[0x40]), refused(6, 0, 0));
}

#[test]
fn a_ranges_refusals_in_their_order() {
    for asked in [(2, 1), (0, 66), (0, usize::MAX), (usize::MAX, 0)] {
        assert_eq!(drawn(&[], 0, asked, 0), alone(12));
    }
    // 12 before 13, 13 before 4, 4 before the stream's own.
    assert_eq!(drawn(&REPEATS, 3, (64, 65), 0), alone(12));
    assert_eq!(drawn(&REPEATS, 1, (64, 65), 0), alone(13));
    assert_eq!(drawn(&REPEATS, 2, (64, 65), 0), alone(4));
    let empty = range((&[], 1, ON_ONE), (&REPEATS, 1), 0..1, &mut [7]);
    assert_eq!(empty, refused(5, 0, 0));
    // What stands behind the range is not looked at, and 8 is not judged.
    assert_eq!(
        from_entry([0, ONE.into(), 255, 0], &[0xBF, 0]),
        Ok(vec![ONE])
    );
    let mut bytes = repeats();
    bytes[16] = 0xA0;
    let last = range((&bytes, 65, ON_ONE), (&REPEATS, 2), 64..65, &mut [7]);
    assert_eq!(last, Ok(()));
    // A stream's refusal says the value over the whole stream, and the place from its first bit.
    let further = range((&repeats(), 66, ON_ONE), (&REPEATS, 2), 65..66, &mut [7]);
    assert_eq!(further, refused(6, 65, 130));
}

#[test]
fn the_checks_refusals_in_their_order() {
    let check =
        |bytes: &[u8], count, table: &[u64], entries| check(bytes, count, ON_ONE, table, entries);
    let bytes = repeats();
    assert_eq!(check(&bytes, 65, &REPEATS, 2), Ok(()));
    assert_eq!(check(&bytes[..3], 65_537, &[], 1), alone(3));
    assert_eq!(check(&bytes[..3], 65, &REPEATS[..7], 2), alone(12));
    assert_eq!(check(&bytes[..3], 65, &REPEATS[..7], 1), alone(13));
    assert_eq!(check(&bytes[..3], 65, &[9; 8], 2), refused(5, 12, 24));
    assert_eq!(check(&bytes, 65, &[9; 8], 2), alone(13));
    // Words behind those in use are not looked at.
    assert_eq!(
        check(&bytes, 65, &[&REPEATS[..], &[9; 5]].concat(), 2),
        Ok(())
    );
    for word in 0..8 {
        let mut table = REPEATS;
        table[word] ^= 1 << 40;
        assert_eq!(check(&bytes, 65, &table, 2), alone(13));
    }
    assert_eq!(check(&[], 0, &[], 0), Ok(()));
    assert_eq!(check(&[], 0, &[0; 4], 1), alone(13));
    assert_eq!(check(&[0], 0, &[], 0), refused(8, 0, 0));
}

#[test]
fn writing_adds_entries_and_judges_their_number() {
    let fresh = MacaqueV::new(Lossless, ON_ONE).unwrap();
    let (mut buffer, mut table) = ([0xFF; 17], [9; 9]);
    let mut write = |state: MacaqueV, count: usize, bytes: usize, words: usize, entries: usize| {
        let values = vec![ONE; count];
        let (buffer, table) = (&mut buffer[..bytes], &mut table[..words]);
        let before = (buffer.to_vec(), table.to_vec());
        let answer = compress_values(state, &values, buffer, table, entries);
        assert!(answer.is_ok() || before == (buffer.to_vec(), table.to_vec()));
        answer
    };
    let far = MacaqueV { place: 1, ..fresh };
    // 2 and 3 before 12, 12 before 13, 13 before 4.
    assert_eq!(write(far, 70_000, 0, 0, 9), Err(2));
    assert_eq!(write(fresh, 70_000, 0, 0, 9), Err(3));
    assert_eq!(write(fresh, 65, 0, 3, 1), Err(12));
    assert_eq!(write(fresh, 65, 0, 4, 1), Err(13));
    assert_eq!(write(fresh, 65, 17, 7, 0), Err(4));
    assert_eq!(write(fresh, 65, 16, 9, 0), Err(4));
    let (state, entries) = write(fresh, 64, 17, 9, 0).unwrap();
    assert_eq!(entries, 1);
    assert_eq!(write(state, 1, 17, 9, 2), Err(13));
    assert_eq!(write(state, 0, 17, 9, 1), Ok((state, 1)));
    // What the entry in use holds is carried on.
    assert_eq!(table, [0, ONE.into(), 255, 0, 9, 9, 9, 9, 9]);
    table[0] = 77;
    let more = compress_values(state, &[ONE], &mut buffer, &mut table, 1);
    assert_eq!(
        more.map(|(state, entries)| (state.place, entries)),
        Ok((130, 2))
    );
    assert_eq!(table, [77, ONE.into(), 255, 0, 128, ONE.into(), 255, 0, 9]);
}

#[test]
fn reopening_answers_how_many_entries_stay() {
    let reopening = Reopening {
        used: 17,
        count: 65,
        k: 64,
        opening: ON_ONE,
        error_bound: Lossless,
    };
    let reopen = |reopening: Reopening, table: &[u64], entries| {
        let mut buffer = repeats();
        reopening.reopen(&mut buffer, table, entries)
    };
    for (k, entries) in [(0, 0), (1, 1), (64, 1), (65, 2)] {
        let answer = reopen(Reopening { k, ..reopening }, &[9; 8], 2);
        assert_eq!(
            answer.map(|(state, entries)| (state.length, entries)),
            Ok((k, entries))
        );
    }
    let bound = Reopening {
        error_bound: Absolute(0.0),
        ..reopening
    };
    let most = Reopening {
        count: 65_537,
        ..reopening
    };
    let above = Reopening { k: 66, ..reopening };
    let cut = Reopening {
        used: 3,
        ..reopening
    };
    // 1, 3, 12, 13, then the stream's own.
    assert_eq!(reopen(bound, &[], 9), alone(1));
    assert_eq!(reopen(most, &[], 9), alone(3));
    assert_eq!(reopen(above, &[], 0), alone(12));
    assert_eq!(reopen(cut, &[9; 7], 2), alone(12));
    assert_eq!(reopen(cut, &[9; 7], 1), alone(13));
    assert_eq!(reopen(cut, &[9; 12], 3), alone(13));
    assert_eq!(reopen(cut, &[9; 8], 2), refused(5, 12, 24));
}
