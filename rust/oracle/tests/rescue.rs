//! The smallest inputs of our readings of rescue, and streams cut at every byte.

use oracle::paper::macaque_v::{MacaqueV, Opening};
use oracle::paper::models::ErrorBound::{self, Absolute, Lossless, Relative};
use oracle::paper::place_table::{check, table_of};
use oracle::paper::rescue::Rescue;
use oracle::paper::{Fault, MOST_VALUES, Read};

const ONE: u32 = 0x3F80_0000;
const ON_ONE: Opening = Opening::On(ONE);

/// 1.0, 1.0, 2.0 with the first in full: 32 bits, 2 and 21.
const CASE_A: [u8; 7] = [0x3F, 0x80, 0x00, 0x00, 0xB0, 0x91, 0xFE];

/// Lossless, with no limit but that of every stream.
fn of(used: usize, opening: Opening) -> Rescue {
    Rescue {
        used,
        limit: MOST_VALUES,
        opening,
        error_bound: Lossless,
    }
}

/// How many values are kept of all these bytes, and to which place.
fn kept(bytes: &[u8], limit: usize, opening: Opening) -> Read<(usize, usize)> {
    let rescue = Rescue {
        limit,
        ..of(bytes.len(), opening)
    };
    let state = rescue.rescue(&mut bytes.to_vec())?;
    Ok((state.length, state.place))
}

fn refused<T>(number: u32, value: usize, place: usize) -> Read<T> {
    Err(Fault {
        number,
        value,
        place,
    })
}

#[test]
fn a_cut_keeps_the_values_that_arrived_whole() {
    for (used, answer, byte) in [
        (0, (0, 0), 0xB0),
        (3, (0, 0), 0xB0),
        (4, (1, 32), 0xB0),
        // The bits of the third value behind place 34 become 0 in their first byte, and stay in the next.
        (5, (2, 34), 0x80),
        (6, (2, 34), 0x80),
        (7, (3, 55), 0xB0),
    ] {
        let mut buffer = CASE_A;
        let rescue = Rescue {
            limit: 3,
            ..of(used, Opening::WithFirst)
        };
        let state = rescue.rescue(&mut buffer).expect("a cut");
        assert_eq!((state.length, state.place), answer, "{used} bytes");
        let mut left = CASE_A;
        left[4] = byte;
        assert_eq!(buffer, left, "{used} bytes");
    }
}

#[test]
fn padding_may_read_as_a_value() {
    let one_value = [0xFE, 0x0C];
    assert_eq!(kept(&one_value, 0, ON_ONE), Ok((0, 0)));
    assert_eq!(kept(&one_value, 1, ON_ONE), Ok((1, 14)));
    for limit in [2, 3, MOST_VALUES] {
        assert_eq!(kept(&one_value, limit, ON_ONE), Ok((2, 16)));
    }
}

#[test]
fn padding_may_read_as_damage() {
    assert_eq!(kept(&[0x80], 1, ON_ONE), Ok((1, 2)));
    for limit in [2, 3, MOST_VALUES] {
        assert_eq!(kept(&[0x80], limit, ON_ONE), refused(6, 1, 2));
    }
}

/// Stale bits in the last byte, and further bytes: no 8.
#[test]
fn what_remains_is_no_refusal() {
    let mut buffer = [0xBF, 0xFF];
    let rescue = Rescue {
        limit: 1,
        ..of(2, ON_ONE)
    };
    let state = rescue.rescue(&mut buffer).expect("one value");
    assert_eq!((state.length, state.place, buffer), (1, 2, [0x80, 0xFF]));
    // A header that is cut, and one whose bits are: no 5.
    assert_eq!(kept(&[0xC0], 9, ON_ONE), Ok((0, 0)));
    assert_eq!(kept(&[0xB0, 0x91], 9, ON_ONE), Ok((1, 2)));
    assert_eq!(kept(&[], 9, ON_ONE), Ok((0, 0)));
}

#[test]
fn damage_is_no_cut() {
    assert_eq!(kept(&[0x00], 1, ON_ONE), refused(6, 0, 0));
    assert_eq!(kept(&[0xA0], 3, ON_ONE), refused(6, 2, 4));
    assert_eq!(kept(&[0xFE, 0x10], 1, ON_ONE), refused(7, 0, 0));
    assert_eq!(kept(&[0xB0, 0x00], 2, ON_ONE), refused(7, 1, 2));
    // A header is judged where all of it is there.
    assert_eq!(kept(&[0xC0, 0x00], 1, ON_ONE), refused(7, 0, 0));
    // What stands behind the limit is not looked at.
    assert_eq!(kept(&[0x00], 0, ON_ONE), Ok((0, 0)));
    assert_eq!(kept(&[0xB0, 0x00], 1, ON_ONE), Ok((1, 2)));
}

#[test]
fn refusals_in_their_order() {
    let asked = |rescue: Rescue, words: usize| {
        let (mut buffer, mut table) = ([0x00], vec![9; words]);
        let tabled = rescue.with_table(&mut buffer, &mut table);
        assert_eq!(buffer, [0x00]);
        assert!(table.iter().all(|&word| word == 9));
        let plain = rescue.rescue(&mut buffer);
        (plain.map(|_| ()), tabled.map(|_| ()))
    };
    let both = |number: u32, value, place| {
        let answer = refused(number, value, place);
        (answer, answer)
    };
    let wrong = Rescue {
        used: 2,
        limit: MOST_VALUES + 1,
        opening: ON_ONE,
        error_bound: Absolute(0.0),
    };
    assert_eq!(asked(wrong, 0), both(1, 0, 0));
    let wrong = Rescue {
        error_bound: Lossless,
        ..wrong
    };
    assert_eq!(asked(wrong, 0), both(3, 0, 0));
    let wrong = Rescue { limit: 65, ..wrong };
    assert_eq!(asked(wrong, 0), both(12, 0, 0));
    let wrong = Rescue { used: 1, ..wrong };
    // The entries of the limit have to fit in, whatever arrived; words that are no whole entry do not count.
    for words in [0, 4, 7] {
        assert_eq!(asked(wrong, words), (refused(6, 0, 0), refused(4, 0, 0)));
    }
    assert_eq!(asked(wrong, 8), both(6, 0, 0));
    let none = Rescue { used: 0, ..wrong };
    assert_eq!(asked(none, 7), (Ok(()), refused(4, 0, 0)));
    let none = Rescue { limit: 0, ..none };
    assert_eq!(asked(none, 0), (Ok(()), Ok(())));
}

/// Values whose codes are of all kinds, gaps with and without a payload among them.
fn values(count: usize) -> Vec<u32> {
    let kinds = [20.5f32, 20.5, 20.625, 20.75, 20.5, -3.0, f32::NAN, 20.5];
    let value = |number: usize| match number % 11 {
        9 => 0xFFC1_2345,
        10 => 0x41A4_0000 + number as u32,
        kind => kinds[kind % 8].to_bits(),
    };
    (0..count).map(value).collect()
}

const OPENINGS: [Opening; 3] = [Opening::WithFirst, ON_ONE, Opening::On(0xFFFF_FFFF)];
const BOUNDS: [ErrorBound; 3] = [Lossless, Absolute(0.5), Relative(1.0)];

/// The states of one run, before the first value and behind each, and its bytes.
fn run(bound: ErrorBound, opening: Opening, values: &[u32]) -> (Vec<MacaqueV>, Vec<u8>) {
    let mut bytes = vec![0; 6 * values.len()];
    let mut states = vec![MacaqueV::new(bound, opening).expect("an allowed bound")];
    for (number, &value) in values.iter().enumerate() {
        let next = states[number].compress_values(&[value], &mut bytes);
        states.push(next.expect("room"));
    }
    bytes.truncate(states[values.len()].place.div_ceil(8));
    (states, bytes)
}

/// How many values have their last bit among so many bytes.
fn arrived(states: &[MacaqueV], used: usize) -> usize {
    states.partition_point(|state| state.place <= 8 * used) - 1
}

/// Cut at every byte, and gone on with: the state and the bytes of one run, and its table.
#[test]
fn a_cut_at_any_byte_leaves_no_trace() {
    let values = values(140);
    for opening in OPENINGS {
        for bound in BOUNDS {
            let (states, bytes) = run(bound, opening, &values);
            let table = table_of(bound, opening, &values).expect("an allowed bound");
            for used in 0..=bytes.len() {
                let state = states[arrived(&states, used)];
                let mut buffer = vec![0xA5; bytes.len()];
                buffer[..used].copy_from_slice(&bytes[..used]);
                let (mut words, whole) = (vec![9; 12], values.len());
                let rescue = Rescue {
                    used,
                    limit: whole,
                    opening,
                    error_bound: bound,
                };
                let rescued = rescue.with_table(&mut buffer, &mut words);
                let entries = state.length.div_ceil(64);
                assert_eq!(rescued, Ok((state, entries)), "{used} bytes");
                assert_eq!(words[..4 * entries], table[..entries].concat());
                assert!(words[4 * entries..].iter().all(|&word| word == 9));
                assert!(buffer[used..].iter().all(|&byte| byte == 0xA5));
                let on = state.compress_values(&values[state.length..], &mut buffer);
                assert_eq!((on, &buffer), (Ok(states[whole]), &bytes));
            }
        }
    }
}

/// Where a value is missing, every limit from the number kept on gives the same answer, and a smaller one keeps as many.
#[test]
fn where_a_value_is_missing_the_limit_is_free() {
    let values = values(20);
    for opening in OPENINGS {
        let (states, bytes) = run(Lossless, opening, &values);
        for used in 0..bytes.len() {
            let length = arrived(&states, used);
            for limit in [0, 1, length, length + 1, 20, 21, 100, MOST_VALUES] {
                let state = states[length.min(limit)];
                let answer = kept(&bytes[..used], limit, opening);
                assert_eq!(answer, Ok((state.length, state.place)));
            }
        }
    }
}

/// Behind a stream that is whole, with its own count, it is reopening; the table is the stream's own.
#[test]
fn of_a_whole_stream_it_is_reopening() {
    let values = values(130);
    for opening in OPENINGS {
        for bound in BOUNDS {
            let (states, bytes) = run(bound, opening, &values);
            let (used, mut words) = (bytes.len(), [9; 12]);
            let rescue = Rescue {
                used,
                limit: 130,
                opening,
                error_bound: bound,
            };
            let mut buffer = bytes.clone();
            let rescued = rescue.with_table(&mut buffer, &mut words);
            assert_eq!(rescued, Ok((states[130], 3)));
            let reopened = MacaqueV::reopen(&mut buffer, used, 130, 130, opening, bound);
            assert_eq!((reopened, &buffer), (Ok(states[130]), &bytes));
            assert_eq!(check(&bytes, 130, opening, &words, 3), Ok(()));
        }
    }
}
