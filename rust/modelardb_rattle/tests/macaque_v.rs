//! The safe writer over the compiled library: what its accessors say, and what a refusal leaves.

use modelardb_rattle::ffi::{self, STATE_WORDS};
use modelardb_rattle::macaque_v::{grid, grid_bits, sum, sum_bits};
use modelardb_rattle::{ErrorBound, Fault, MacaqueV, Opening, Refusal};

const FRESH: u32 = 0x7FC0_0000;

fn opened(error_bound: ErrorBound, opening: Opening) -> MacaqueV {
    MacaqueV::new(error_bound, opening).expect("an allowed bound")
}

#[test]
fn a_fresh_writer_is_as_the_paper_says() {
    let first = opened(ErrorBound::Absolute(0.5), Opening::First);
    assert_eq!(first.error_bound(), ErrorBound::Absolute(0.5));
    assert!(first.with_first());
    assert_eq!(
        (first.place(), first.bytes_used(), first.length()),
        (0, 0, 0)
    );
    assert_eq!(
        (first.min_value_bits(), first.max_value_bits()),
        (FRESH, FRESH)
    );
    assert!(first.min_value().is_nan() && first.max_value().is_nan());
    assert_eq!(first.last_value_bits(), 0);
    assert_eq!((first.sum_bits(), first.mean()), (0, None));
    assert_eq!(first.last_leading_zero_bits(), MacaqueV::OPENING_LEADING);
    assert_eq!(first.last_trailing_zero_bits(), MacaqueV::OPENING_TRAILING);

    let on = opened(ErrorBound::Relative(1.0), Opening::on_bits(0x7FC1_2345));
    assert_eq!(on.error_bound(), ErrorBound::Relative(1.0));
    assert!(!on.with_first());
    assert_eq!(on.last_value_bits(), 0x7FC1_2345);
    assert_eq!(on.min_value_bits(), FRESH);
}

#[test]
fn a_writer_knows_the_values_behind_it() {
    let mut writer = opened(ErrorBound::Lossless, Opening::First);
    let mut buffer = [0xFF; 32];
    writer
        .compress_values(&[1.0, 1.0, 2.0, -3.0], &mut buffer)
        .expect("room");
    assert_eq!(writer.error_bound(), ErrorBound::Lossless);
    assert_eq!((writer.min_value(), writer.max_value()), (-3.0, 2.0));
    assert_eq!((writer.last_value(), writer.length()), (-3.0, 4));
    assert_eq!(writer.bytes_used(), writer.place().div_ceil(8));
    let bytes = &buffer[..writer.bytes_used()];
    assert_eq!(sum(bytes, 4, Opening::First), Ok(1.0));
    assert!(
        buffer[writer.bytes_used()..]
            .iter()
            .all(|&byte| byte == 0xFF)
    );
}

/// One value at a time, and reopened behind each: the sum is the sum call's on the bytes in use.
#[test]
fn a_writer_holds_the_sum_of_the_kept_values() {
    let greatest = f32::MAX.to_bits();
    let lists: [&[u32]; 5] = [
        &[0x8000_0000, 0x8000_0000],
        &[0x8000_0000, 0x0000_0000, 0x8000_0000],
        &[greatest, greatest, 0xFF80_0000],
        &[0x7FC1_2345, 0x3F80_0000],
        &[0x41A4_0000, 0x41A4_3333, 0x41B0_0000, 0xC1B0_0000],
    ];
    for values in lists {
        for opening in [Opening::First, Opening::On(20.0)] {
            for bound in [ErrorBound::Lossless, ErrorBound::Absolute(0.5)] {
                let (mut writer, mut buffer) = (opened(bound, opening), [0; 64]);
                for (number, &value) in values.iter().enumerate() {
                    writer
                        .compress_values_bits(&[value], &mut buffer)
                        .expect("room");
                    let (used, count) = (writer.bytes_used(), number + 1);
                    let answered = sum_bits(&buffer[..used], count, opening);
                    assert_eq!(Ok(writer.sum_bits()), answered, "{values:08X?}");
                    for k in 0..=count {
                        let mut copy = buffer;
                        let again = MacaqueV::reopen(&mut copy, used, count, k, opening, bound)
                            .expect("a stream of ours");
                        let answered = sum_bits(&copy[..again.bytes_used()], k, opening);
                        assert_eq!(Ok(again.sum_bits()), answered, "{values:08X?} at {k}");
                    }
                }
            }
        }
    }
}

/// Word 10 of a row: not judged where it is an f32, 2 where it is none, and left by a write of no values.
#[test]
fn a_sum_that_is_handed_in_is_carried_on() {
    // In the first mode a first value sets it, and in the second it is added.
    let written = |mode: u32, sum: u64, values: &[u32]| {
        let (mut row, mut buffer) = ([0; STATE_WORDS], [0; 64]);
        let fault = ffi::macaque_v_new((0, 0), (mode, 0), &mut row);
        assert_eq!(fault, Fault::ACCEPTED);
        row[10] = sum;
        let fault = ffi::macaque_v_compress_values(&mut row, values, &mut buffer);
        (fault.number, row[10])
    };
    let (odd, one) = (0xFFC1_2345, 0x3F80_0000);
    for mode in [0, 1] {
        assert_eq!(written(mode, 1 << 32, &[]), (2, 1 << 32));
        assert_eq!(written(mode, odd, &[]), (0, odd));
    }
    assert_eq!(written(0, odd, &[one]), (0, one.into()));
    assert_eq!(written(1, odd, &[one]), (0, FRESH.into()));
    assert_eq!(written(1, one.into(), &[0x8000_0000]), (0, one.into()));
}

#[test]
fn a_mean_is_worked_out_in_f64() {
    let mut writer = opened(ErrorBound::Lossless, Opening::On(0.0));
    let mut buffer = [0; 64];
    writer.compress_values(&[], &mut buffer).expect("room");
    assert_eq!(writer.mean(), None);
    writer
        .compress_values(&[1.0, 1.0, 2.0], &mut buffer)
        .expect("room");
    assert_eq!((writer.sum(), writer.mean()), (4.0, Some(4.0 / 3.0)));
    writer
        .compress_values_bits(&[0xFFC1_2345], &mut buffer)
        .expect("room");
    assert_eq!(writer.sum_bits(), FRESH);
    assert!(writer.mean().expect("four values").is_nan());
}

#[test]
fn a_refused_write_changes_nothing() {
    let mut writer = opened(ErrorBound::Lossless, Opening::On(1.0));
    let mut buffer = [0xA5; 3];
    writer.compress_values(&[1.0], &mut buffer).expect("room");
    let (before, bytes) = (writer.clone(), buffer);
    assert_eq!(
        writer.compress_values(&[2.5], &mut buffer),
        Err(Refusal::OutputTooShort)
    );
    let too_many = vec![1.0; MacaqueV::MOST_VALUES];
    assert_eq!(
        writer.compress_values(&too_many, &mut buffer),
        Err(Refusal::OverLimit)
    );
    assert_eq!(
        writer.compress_values(&[1.0], &mut []),
        Err(Refusal::StateNotAllowed)
    );
    assert_eq!((writer, buffer), (before, bytes));
}

#[test]
fn a_refused_reopening_changes_nothing() {
    let good = [0xA5, 0x5A];
    let lossless = ErrorBound::Lossless;
    let reopen = |used, count, k, bound| {
        let mut buffer = good;
        let answer = MacaqueV::reopen(&mut buffer, used, count, k, Opening::On(1.0), bound);
        assert_eq!(buffer, good);
        answer
    };
    assert_eq!(
        reopen(2, 1, 0, ErrorBound::Absolute(0.0)),
        Err(Refusal::BoundNotAllowed)
    );
    assert_eq!(reopen(2, 65_537, 0, lossless), Err(Refusal::OverLimit));
    assert_eq!(reopen(2, 1, 2, lossless), Err(Refusal::CountsDisagree));
    assert_eq!(reopen(3, 1, 1, lossless), Err(Refusal::CountsDisagree));
    let leftover = Refusal::Leftover { value: 1, place: 2 };
    assert_eq!(reopen(2, 1, 1, lossless), Err(leftover));
}

#[test]
fn reading_leaves_what_is_not_its_own() {
    let (mut values, mut bits) = ([9.0; 3], [9; 3]);
    assert_eq!(grid(&[0xA0], 2, Opening::On(1.0), &mut values), Ok(()));
    assert_eq!(values, [1.0, 1.0, 9.0]);
    assert_eq!(
        grid_bits(&[0xA0], 3, Opening::On(1.0), &mut bits),
        Err(Refusal::NoWindow { value: 2, place: 4 })
    );
    assert_eq!(
        grid_bits(&[0xA0], 4, Opening::On(1.0), &mut bits),
        Err(Refusal::OutputTooShort)
    );
    assert_eq!(bits, [9; 3]);
    assert_eq!(sum_bits(&[], 0, Opening::First), Ok(0));
    assert_eq!(
        sum_bits(&[0x80], 1, Opening::on_bits(0xFFFF_FFFF)),
        Ok(FRESH)
    );
}

/// Every kept value but a raw first one passes the test of its bound as a user works it in f64.
#[test]
fn kept_values_are_within_the_bound_in_f64() {
    for percent in 1..=100u8 {
        for first in 1..=60u8 {
            let list: Vec<f32> = (1..=60)
                .flat_map(|value| [first, value])
                .map(f32::from)
                .collect();
            let mut buffer = vec![0; 6 * list.len()];
            let mut writer = opened(ErrorBound::Relative(percent.into()), Opening::First);
            writer.compress_values(&list, &mut buffer).expect("room");
            let mut kept = vec![0.0; list.len()];
            let bytes = &buffer[..writer.bytes_used()];
            grid(bytes, list.len(), Opening::First, &mut kept).expect("a stream");
            for (&value, &kept) in list.iter().zip(&kept) {
                let (real, kept) = (f64::from(value), f64::from(kept));
                let away = ((real - kept) / real).abs() * 100.0;
                assert!(away <= percent.into(), "{kept} for {real} at {percent} %");
            }
        }
    }
}
