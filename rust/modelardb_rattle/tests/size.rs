//! How large a stream can get: the two calls at their limits, and lists that take as much as they answer, in one go, in
//! parts, and reopened in between.

use modelardb_rattle::{ErrorBound, Fault, MacaqueV, Model, Opening, Refusal, Segment, ffi};

const LOSSLESS: ErrorBound = ErrorBound::Lossless;

const COUNTS: [usize; 6] = [1, 2, 3, 64, 1_000, MacaqueV::MOST_VALUES];

fn openings() -> [Opening; 4] {
    let odd = [0x7FC1_2345, 0xFFFF_FFFF].map(Opening::on_bits);
    [Opening::First, Opening::On(20.5), odd[0], odd[1]]
}

/// Values of which each after a raw one takes 44 bits, and the last 45: it sets a window that the next, or the last, is
/// too wide for.
fn largest(count: usize, opening: Opening) -> Vec<u32> {
    let (raw, mut value) = match opening {
        Opening::First => (1, 0),
        Opening::On(value) => (0, value.to_bits()),
    };
    let next = |number: usize| {
        value ^= match number {
            _ if number < raw => 0,
            _ if number + 1 == count => 0x8000_0001,
            _ if number % 2 == 0 => 0x4000_0001,
            _ => 0x8000_0002,
        };
        value
    };
    (0..count).map(next).collect()
}

fn opened(opening: Opening) -> MacaqueV {
    MacaqueV::new(LOSSLESS, opening).expect("an allowed bound")
}

fn bits(count: usize, opening: Opening) -> usize {
    MacaqueV::most_bits(count, opening).expect("within the limit")
}

fn bytes(count: usize, opening: Opening) -> usize {
    MacaqueV::most_bytes(count, opening).expect("within the limit")
}

#[test]
fn a_count_is_answered_up_to_its_limit() {
    for (count, first, on) in [
        (0, 0, 0),
        (1, 32, 45),
        (2, 77, 89),
        (65_536, 2_883_573, 2_883_585),
    ] {
        for opening in openings() {
            let most = if opening == Opening::First { first } else { on };
            assert_eq!(MacaqueV::most_bits(count, opening), Ok(most));
            assert_eq!(MacaqueV::most_bytes(count, opening), Ok(most.div_ceil(8)));
        }
    }
    for count in [65_537, usize::MAX] {
        for opening in openings() {
            let refused = Err(Refusal::OverLimit);
            assert_eq!(MacaqueV::most_bits(count, opening), refused);
            assert_eq!(MacaqueV::most_bytes(count, opening), refused);
        }
    }
}

#[test]
fn a_refusal_leaves_the_number() {
    for (count, mode) in [
        (65_537, 0),
        (65_537, 1),
        (0, 2),
        (1, u32::MAX),
        (usize::MAX, 2),
    ] {
        for call in [ffi::macaque_v_most_bits, ffi::macaque_v_most_bytes] {
            let mut number = 7;
            let fault = call(count, mode, &mut number);
            assert_eq!(
                (fault, number),
                (Fault::from(3), 7),
                "{count} in mode {mode}"
            );
        }
    }
}

#[test]
fn the_largest_list_fits_in_and_in_no_byte_less() {
    for count in COUNTS {
        for opening in openings() {
            let (values, mut buffer) = (largest(count, opening), vec![0xA5; bytes(count, opening)]);
            let mut writer = opened(opening);
            let short = &mut buffer[1..];
            let refused = writer.compress_values_bits(&values, short);
            assert_eq!(refused, Err(Refusal::OutputTooShort));
            assert_eq!(writer, opened(opening));
            assert!(short.iter().all(|&byte| byte == 0xA5));
            assert_eq!(writer.compress_values_bits(&values, &mut buffer), Ok(()));
            assert_eq!(writer.place(), bits(count, opening), "{count} {opening:?}");
        }
    }
}

/// Written in parts. Behind each part it is cut some values back, reopened, and written on.
#[test]
fn the_largest_list_fits_in_by_parts() {
    for count in COUNTS {
        for opening in openings() {
            let (values, mut buffer) = (largest(count, opening), vec![0xA5; bytes(count, opening)]);
            let mut writer = opened(opening);
            for part in values.chunks(count.div_ceil(7)) {
                let written = writer.compress_values_bits(part, &mut buffer);
                assert_eq!(written, Ok(()), "{count} {opening:?}");
                let (used, length) = (writer.bytes_used(), writer.length());
                let k = length - part.len().div_ceil(3);
                let on = MacaqueV::reopen(&mut buffer, used, length, k, opening, LOSSLESS);
                let mut on = on.expect("a stream of ours");
                let again = on.compress_values_bits(&values[k..length], &mut buffer);
                assert_eq!((again, &on), (Ok(()), &writer));
            }
            assert_eq!(writer.place(), bits(count, opening));
        }
    }
}

/// With a byte less only the last value finds no room.
#[test]
fn one_by_one_the_last_value_is_refused_a_byte_that_is_not_there() {
    for count in [1, 2, 3, 64, 1_000] {
        for opening in openings() {
            let values = largest(count, opening);
            let mut buffer = vec![0xA5; bytes(count, opening) - 1];
            let mut writer = opened(opening);
            let (last, before) = values.split_last().expect("a value");
            for &value in before {
                let written = writer.compress_values_bits(&[value], &mut buffer);
                assert_eq!(written, Ok(()), "{count} {opening:?}");
            }
            let (state, stands) = (writer.clone(), buffer.clone());
            let refused = writer.compress_values_bits(&[*last], &mut buffer);
            assert_eq!(refused, Err(Refusal::OutputTooShort));
            assert_eq!((writer, buffer), (state, stands));
        }
    }
}

/// A stream that no writer of ours makes: a code of 45 bits, and behind it one that sets a smaller window. A writer that
/// goes on from there has room for more values as one without a first value has.
#[test]
fn behind_a_stream_of_another_program_the_bits_in_use_come_on_top() {
    let on = Opening::On(0.0);
    let codes = [(0, 32, 0x8000_0001u32), (0, 31, 0x8000_0002 >> 1)];
    let code = |(leading, meaningful, bits)| {
        let width = meaningful as usize;
        format!("11{leading:05b}{meaningful:06b}{bits:0width$b}")
    };
    let foreign: String = codes.map(code).concat();
    assert_eq!(foreign.len(), 45 + 44);
    for count in [1, 2, 3, 64, 1_000, MacaqueV::MOST_VALUES - 2] {
        let bits = foreign.len() + bits(count, on);
        let mut buffer = vec![0; bits.div_ceil(8)];
        for (place, _) in foreign.match_indices('1') {
            buffer[place / 8] |= 0x80 >> (place % 8);
        }
        let used = foreign.len().div_ceil(8);
        let writer = MacaqueV::reopen(&mut buffer, used, 2, 2, on, LOSSLESS);
        let mut writer = writer.expect("a stream");
        let values = largest(count, Opening::on_bits(writer.last_value_bits()));
        let written = writer.compress_values_bits(&values, &mut buffer);
        assert_eq!((written, writer.place()), (Ok(()), bits));
    }
}

#[test]
fn a_segments_residuals_take_a_stream_and_a_byte() {
    let (count, on) = (MacaqueV::MOST_RESIDUALS, Opening::On(20.5));
    assert_eq!(ffi::MOST_RESIDUALS_BYTES, bytes(count, on) + 1);
    let segment = Segment::write_bits(Model::PMCMean(20.5), LOSSLESS, &largest(count, on));
    let residuals = segment.expect("room").residuals;
    assert_eq!(residuals.len(), ffi::MOST_RESIDUALS_BYTES);
    assert_eq!(residuals.last(), Some(&255));
}
