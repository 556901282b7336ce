//! The smallest inputs of our readings: one test for each place that the paper leaves open.

use oracle::paper::macaque_v::{self, MacaqueV, Opening, Reader, Window, kept, read_all};
use oracle::paper::models::ErrorBound::{self, Absolute, Lossless, Relative};
use oracle::paper::numbers::{NAN_32, narrow, narrow_by_cast, widen, widen_by_cast};
use oracle::paper::pmc_mean::PMCMean;
use oracle::paper::segments::{Segment, write};
use oracle::paper::swing::{self, Line, Swing};
use oracle::paper::types::{Extremes, ModelBuilder, choose_model, pmc_mean_bytes, swing_bytes};
use oracle::paper::{Fault, Read};

const ONE: u32 = 0x3F80_0000;
/// "At most 65,536 values a call or stream".
const MOST: usize = 65_536;
const NONE: Extremes = Extremes {
    min_value: NAN_32,
    max_value: NAN_32,
};

fn bits(value: f32) -> u32 {
    value.to_bits()
}

/// Refused at a value and a place.
fn refused<T>(number: u32, value: usize, place: usize) -> Read<T> {
    Err(Fault {
        number,
        value,
        place,
    })
}

#[test]
fn conversions_at_their_edges() {
    for sign in [0, 1 << 31] {
        for exponent in 0..=255 {
            for fraction in [0, 1, 2, 0x3F_FFFF, 0x40_0000, 0x7F_FFFE, 0x7F_FFFF] {
                let pattern = sign | exponent << 23 | fraction;
                assert_eq!(widen(pattern), widen_by_cast(pattern), "{pattern:08X}");
                for low in [0u64, 1, 0x0FFF_FFFF, 0x1000_0000, 0x1000_0001] {
                    let wide = widen(pattern).wrapping_add(low);
                    assert_eq!(narrow(wide), narrow_by_cast(wide), "{wide:016X}");
                }
            }
        }
    }
}

#[test]
fn bounds() {
    for bound in [
        Absolute(f32::INFINITY),
        Absolute(0.0),
        Absolute(-1.0),
        Relative(100.1),
    ] {
        assert!(!bound.is_allowed());
        assert_eq!(MacaqueV::new(bound, Opening::WithFirst), Err(1));
    }
    assert!(!Absolute(f32::NAN).is_allowed() && !Relative(f32::NAN).is_allowed());
    assert!(Relative(100.0).is_allowed() && Absolute(f32::from_bits(1)).is_allowed());
}

#[test]
fn a_minimum_keeps_the_bits_of_the_value_that_won() {
    let writer = MacaqueV::new(Lossless, Opening::WithFirst).unwrap();
    let after = writer.compress_values(&[0x7FC0_0001, 0x7FC0_0002], &mut [0; 16]);
    let after = after.unwrap();
    assert_eq!(after.min_value, 0x7FC0_0002);
    assert_eq!(after.max_value, 0x7FC0_0002);
}

#[test]
fn a_nan_model_counts_as_7fc00000_from_the_start() {
    let (mut values, mut residuals) = ([0; 8], [0; 8]);
    let written = write(
        0,
        (0x7FC1_2345, 0),
        Lossless,
        &[0],
        &mut values,
        &mut residuals,
    );
    assert_eq!(written.unwrap().residuals_length, 4);
    assert_eq!(residuals[..4], [0xC2, 0x4F, 0xFC, 0x01]);
    let nan_residual = Extremes {
        min_value: 0x7FC0_0001,
        max_value: 0x7FC0_0001,
    };
    assert_eq!(pmc_mean_bytes(NAN_32, nan_residual), []);
}

#[test]
fn pmc_of_minus_zero_answers_plus_zero() {
    let (fits, state) = PMCMean::new(Lossless).unwrap().fit_value(1 << 31).unwrap();
    assert_eq!((fits, state.model()), (true, Ok(0)));
}

#[test]
fn the_lossy_rule_on_nans() {
    let bound = Absolute(1.0);
    assert_eq!(kept(bound, ONE, 0x7FC1_2345), 0x7FC0_0000);
    assert_eq!(kept(bound, ONE, 0x7F80_0003), 0x7F80_0002);
    assert_eq!(kept(bound, ONE, 0xFFFF_FFFF), 0xFFC0_0000);
    assert_eq!(kept(bound, 0x7FC0_0007, 0xFFFF_FFFF), 0x7FC0_0007);
    assert_eq!(kept(Absolute(100.0), bits(1000.0), bits(1.9)), bits(1.0));
}

#[test]
fn a_failed_model_causes_no_refusal_of_a_step() {
    let mut builder = ModelBuilder::new(Lossless).unwrap();
    for (time, value) in [(0, 0.0), (1, 1.0), (2, 0.0)] {
        (_, builder) = builder.try_to_update_models(time, bits(value)).unwrap();
    }
    assert!(!builder.pmc_mean_could_fit_all && !builder.swing_could_fit_all);
    builder.pmc_mean.error_bound = Absolute(-1.0);
    builder.swing.length = 70_000;
    let (fits, after) = builder.try_to_update_models(-5, 0).unwrap();
    assert_eq!((fits, after.row()), (false, builder.row()));
    let late = builder.try_to_update_models((1 << 52) + 1, 0);
    assert_eq!(late.unwrap_err(), 10);
    assert_eq!(builder.finish(1).unwrap_err(), 1);
}

#[test]
fn swing_states() {
    let fresh = Swing::new(Lossless).unwrap();
    let (fits, one) = fresh.fit_data_point(1 << 52, ONE).unwrap();
    assert!(fits);
    assert_eq!(one.model(), Ok((ONE, NAN_32)));
    assert_eq!(one.fit_data_point(1 << 52, ONE).unwrap_err(), 10);
    let unequal = Swing { end_time: 0, ..one };
    assert_eq!(unequal.model(), Err(2));
    let outside = Swing {
        start_time: (1 << 52) + 1,
        end_time: (1 << 52) + 1,
        ..one
    };
    assert_eq!(outside.model(), Err(2));
    assert_eq!(fresh.model(), Err(11));
    let full = Swing {
        length: MOST,
        start_time: 0,
        ..one
    };
    assert_eq!(full.fit_data_point(0, ONE).unwrap_err(), 3);
}

#[test]
fn a_two_point_model_takes_the_upper_slope() {
    let mut state = Swing::new(Absolute(1.0)).unwrap();
    (_, state) = state.fit_data_point(0, 0).unwrap();
    (_, state) = state.fit_data_point(10, bits(5.0)).unwrap();
    assert_eq!(state.model(), Ok((0, bits(6.0))));
}

#[test]
fn choosing() {
    let max = bits(f32::MAX);
    let runs_off = choose_model(&[0, 1], &[max | 1 << 31, max], Absolute(3e38), 1);
    assert_eq!(runs_off.unwrap().id, 0);
    assert_eq!(choose_model(&[], &[], Lossless, 1), Err(11));
    assert_eq!(choose_model(&[0], &[], Lossless, 1), Err(12));
    assert_eq!(choose_model(&[0, 0], &[0, 0], Lossless, 0), Err(3));
    assert_eq!(
        choose_model(&[0, 1, 2, 1], &[0, 1, 2, 9], Lossless, 9),
        Err(10)
    );
}

#[test]
fn swing_lines() {
    let line = Line {
        start_time: 0,
        end_time: 10,
        first_value: ONE,
        last_value: bits(f32::INFINITY),
    };
    assert_eq!(swing::sum_by_average(line, 0), Err(11));
    assert_eq!(
        swing::sum_over(
            Line {
                end_time: 0,
                ..line
            },
            &[]
        ),
        Err(10)
    );
    assert_eq!(swing::grid(line, &[3, 3], &mut [0; 2]), Err(10));
    assert_eq!(swing::grid(line, &[3, 3], &mut [0; 1]), Err(4));
    let flat = Line {
        last_value: ONE,
        ..line
    };
    let mut out = [0; 3];
    assert_eq!(swing::grid(flat, &[-50, 60], &mut out), Ok(()));
    assert_eq!(out, [ONE, ONE, 0]);
}

#[test]
fn forms_of_parameters() {
    let five = bits(5.0);
    assert_eq!(swing_bytes(five, five, NONE), [0]);
    assert_eq!(swing_bytes(ONE, NAN_32, NONE).len(), 8);
}

fn segment<'a>(model: u32, timestamps: &'a [i64], residuals: &'a [u8]) -> Segment<'a> {
    Segment {
        model,
        timestamps,
        extremes: Extremes {
            min_value: ONE,
            max_value: ONE,
        },
        values: &[],
        residuals,
    }
}

#[test]
fn segments_are_judged_in_order() {
    let out = &mut [0; 4];
    assert_eq!(segment(2, &[], &[]).grid(out), refused(3, 0, 0));
    assert_eq!(segment(0, &[], &[]).grid(out), refused(12, 0, 0));
    assert_eq!(segment(0, &[5], &[0x80, 1]).grid(out), refused(12, 0, 0));
    assert_eq!(
        segment(0, &[5, 5], &[0x80, 1]).grid(&mut out[..1]),
        refused(4, 0, 0)
    );
    assert_eq!(segment(0, &[5, 5], &[0x80, 1]).grid(out), refused(10, 0, 0));
    assert_eq!(segment(1, &[5, 6], &[0x80, 1]).grid(out), refused(10, 0, 0));
    assert_eq!(segment(0, &[5, 6], &[0x80, 0]).grid(out), refused(9, 0, 0));
    assert_eq!(segment(0, &[5, 6], &[0xA0, 1]).grid(out), refused(8, 1, 2));
    assert_eq!(segment(0, &[5, 6], &[0x80, 1]).grid(out), Ok(()));
    assert_eq!(out, &[ONE, ONE, 0, 0]);
}

/// "In a segment, places count from the residual stream's first byte", and values are the residuals.
#[test]
fn a_segment_says_where_its_residuals_broke() {
    let times = &[5, 6, 7, 8, 9];
    for (residuals, number, value, place) in [
        (&[0xC0, 1][..], 5, 0, 0),
        (&[0xAC, 3], 5, 2, 4),
        (&[0xA0, 3], 6, 2, 4),
        (&[0xAC, 0x00, 0x00, 3], 7, 2, 4),
        (&[0xA0, 1], 8, 1, 2),
        (&[0xA0, 0x00, 2], 8, 2, 8),
        (&[0xA8, 0x80, 2], 8, 2, 4),
    ] {
        for model in [0, 1] {
            let segment = segment(model, times, residuals);
            let out = &mut [7; 5];
            assert_eq!(segment.grid(out), refused(number, value, place));
            assert_eq!(out, &[7; 5]);
            assert_eq!(segment.sum_by_average(), refused(number, value, place));
            assert_eq!(segment.sum_over_times(), refused(number, value, place));
        }
    }
}

#[test]
fn a_sum_without_residuals_is_the_models_alone() {
    let minus_zero = Segment {
        extremes: Extremes {
            min_value: 1 << 31,
            max_value: 1 << 31,
        },
        ..segment(0, &[5], &[])
    };
    assert_eq!(minus_zero.sum_by_average(), Ok(1 << 31));
    assert_eq!(minus_zero.sum_over_times(), Ok(1 << 31));
}

#[test]
fn writing_a_segment_leaves_both_outputs_alone_when_one_is_short() {
    let (mut values, mut residuals) = ([9; 8], [9; 1]);
    let written = write(
        1,
        (0, ONE),
        Lossless,
        &[ONE; 3],
        &mut values,
        &mut residuals,
    );
    assert_eq!((written, values, residuals), (Err(4), [9; 8], [9; 1]));
    let many = [0; 256];
    assert_eq!(write(0, (0, 0), Lossless, &many, &mut [], &mut []), Err(3));
    assert_eq!(
        write(2, (0, 0), Absolute(0.0), &[], &mut [], &mut []),
        Err(1)
    );
}

#[test]
fn reopening_zeroes_the_cut_byte_alone() {
    let opening = Opening::On(ONE);
    let reopen = |k, used, count, bound| {
        let mut buffer = [0xFE, 0x0E, 0xFF];
        let answer = MacaqueV::reopen(&mut buffer, used, count, k, opening, bound);
        (answer.map(|state| state.place), buffer)
    };
    assert_eq!(reopen(1, 2, 2, Lossless), (Ok(14), [0xFE, 0x0C, 0xFF]));
    assert_eq!(reopen(2, 2, 2, Lossless), (Ok(16), [0xFE, 0x0E, 0xFF]));
    assert_eq!(reopen(0, 2, 2, Lossless), (Ok(0), [0xFE, 0x0E, 0xFF]));
    assert_eq!(reopen(70_000, 2, 1, Lossless).0, refused(12, 0, 0));
    assert_eq!(reopen(0, 4, 1, Lossless).0, refused(12, 0, 0));
    assert_eq!(reopen(0, 4, MOST + 1, Lossless).0, refused(3, 0, 0));
    assert_eq!(reopen(0, 4, MOST + 1, Absolute(0.0)).0, refused(1, 0, 0));
    assert_eq!(reopen(0, 2, 1, Lossless).0, refused(8, 1, 14));
}

/// A state after one value of one bit, with the window of the lowest bit.
const WRITER: MacaqueV = MacaqueV {
    error_bound: ErrorBound::Lossless,
    with_first: false,
    min_value: 0,
    max_value: 0,
    last_value: ONE,
    window: Window {
        leading: 31,
        trailing: 0,
    },
    place: 1,
    length: 1,
    sum: ONE,
};

/// The place after one more value, and the two bytes.
fn write_on(state: MacaqueV) -> (Result<usize, u32>, [u8; 2]) {
    let mut buffer = [0xFF; 2];
    let answer = state.compress_values(&[ONE ^ 1], &mut buffer);
    (answer.map(|after| after.place), buffer)
}

#[test]
fn writer_states() {
    let placed = |place| MacaqueV { place, ..WRITER };
    assert_eq!(write_on(WRITER), (Ok(3), [0xA0, 0xFF]));
    assert_eq!(write_on(placed(15)), (Err(4), [0xFF; 2]));
    assert_eq!(write_on(placed(17)).0, Err(2));
    assert_eq!(write_on(placed(0)).0, Err(2));
    let full = MacaqueV {
        length: MOST,
        ..WRITER
    };
    assert_eq!(write_on(full).0, Err(3));
    let mut wide = WRITER;
    wide.window.trailing = 1;
    assert_eq!(write_on(wide).0, Err(2));
    assert_eq!(WRITER.compress_values(&[], &mut [0xFF]), Ok(WRITER));
}

#[test]
fn bytes_do_not_fix_the_count() {
    assert_eq!(
        read_all(&[0xFE, 0x0C], 1, Opening::On(ONE)).unwrap().len(),
        1
    );
    assert_eq!(
        read_all(&[0xFE, 0x0C], 2, Opening::On(ONE)).unwrap().len(),
        2
    );
    assert_eq!(
        macaque_v::sum(&[0], 0, Opening::WithFirst),
        refused(8, 0, 0)
    );
    assert_eq!(macaque_v::sum(&[], 0, Opening::WithFirst), Ok(0));
}

#[test]
fn the_reader_holds_its_place() {
    let reader = Reader::open(&[0xA0], Opening::On(ONE));
    let (row, reader) = reader.next_value().unwrap();
    assert_eq!((row.value, row.bits), (ONE, 2));
    assert_eq!(reader.end(), refused(8, 1, 2));
    let (_, reader) = reader.next_value().unwrap();
    assert_eq!(reader.end(), Ok(()));
    assert_eq!(reader.next_value(), refused(6, 2, 4));
    let full = Reader {
        length: MOST,
        ..reader
    };
    assert_eq!(full.next_value(), refused(3, 0, 0));
    assert_eq!(full.end(), Ok(()));
    let wrong = Reader { place: 9, ..reader };
    assert_eq!(wrong.next_value(), refused(2, 0, 0));
    assert_eq!(wrong.end(), refused(2, 0, 0));
}

#[test]
fn the_most_values() {
    let (times, values) = (Vec::from_iter(0..=MOST as i64), vec![ONE; MOST + 1]);
    let most = &values[..MOST];
    let model = choose_model(&times[..MOST], most, Lossless, 1).unwrap();
    assert_eq!((model.id, model.length), (0, MOST));
    assert_eq!(choose_model(&times, &values, Lossless, 1), Err(3));
    let mut buffer = vec![0; 16_384];
    let fresh = MacaqueV::new(Lossless, Opening::On(ONE)).unwrap();
    let full = fresh.compress_values(most, &mut buffer).unwrap();
    assert_eq!((full.length, full.place), (MOST, 131_072));
    assert_eq!(full.compress_values(&[ONE], &mut buffer), Err(3));
    assert_eq!(full.compress_values(&[], &mut buffer), Ok(full));
    let mut out = vec![0; MOST];
    let read = macaque_v::grid(&buffer, MOST, Opening::On(ONE), &mut out);
    assert_eq!((read, out), (Ok(()), most.to_vec()));
}
