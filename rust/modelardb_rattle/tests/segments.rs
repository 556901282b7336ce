//! Segments and parameter bytes through the safe types: what is stored, what comes back, what is refused.

use modelardb_rattle::ErrorBound::{self, Absolute, Lossless, Relative};
use modelardb_rattle::parameters::{
    decode_values_for_pmc_mean, decode_values_for_pmc_mean_bits, decode_values_for_swing,
    encode_values_for_pmc_mean, encode_values_for_pmc_mean_bits, encode_values_for_swing,
};
use modelardb_rattle::{Model, Refusal, Segment};

const NAN: u32 = 0x7FC0_0000;

fn written(model: Model, bound: ErrorBound, residuals: &[f32]) -> Segment {
    Segment::write(model, bound, residuals).expect("an allowed bound, and few residuals")
}

#[test]
fn a_model_alone_needs_no_residual_byte() {
    let segment = written(Model::Swing(20.0, 22.0), Lossless, &[]);
    assert_eq!((segment.min_value(), segment.max_value()), (20.0, 22.0));
    assert!(segment.values.is_empty() && segment.residuals.is_empty());
    assert_eq!(segment.model(), Ok(Model::Swing(20.0, 22.0)));
    let falling = written(Model::Swing(22.0, 20.0), Lossless, &[]);
    assert_eq!(falling.values, [0]);
    assert_eq!(falling.model(), Ok(Model::Swing(22.0, 20.0)));
}

#[test]
fn residuals_come_back_bit_for_bit() {
    let odd = [0x8000_0000, 0, 0x7FC1_2345, 0xFFFF_FFFF, 0x7F80_0000, 1];
    for count in 0..=255 {
        let residuals: Vec<u32> = odd.iter().copied().cycle().take(count).collect();
        let model = Model::Swing(1.5, -1.5);
        let segment = Segment::write_bits(model, Lossless, &residuals).expect("few residuals");
        assert_eq!(
            segment.residuals.last(),
            Some(&(count as u8)).filter(|_| count > 0)
        );
        assert_eq!(segment.model(), Ok(model));
        let times: Vec<i64> = (0..count as i64 + 3).collect();
        let mut out = vec![9; times.len() + 1];
        segment.grid_bits(&times, &mut out).expect("times in order");
        assert_eq!(out[..3], [1.5f32, 0.0, -1.5].map(f32::to_bits));
        assert_eq!(
            (&out[3..times.len()], out[times.len()]),
            (&residuals[..], 9)
        );
    }
}

#[test]
fn writing_is_judged() {
    let model = Model::PMCMean(20.5);
    for bound in [Absolute(0.0), Absolute(f32::INFINITY), Relative(100.1)] {
        let refused = Segment::write(model, bound, &[0.0; 256]);
        assert_eq!(refused, Err(Refusal::BoundNotAllowed));
    }
    let refused = Segment::write(model, Relative(100.0), &[0.0; 256]);
    assert_eq!(refused, Err(Refusal::OverLimit));
}

#[test]
fn a_refused_reading_leaves_the_output() {
    let segment = written(Model::Swing(20.0, 22.0), Absolute(0.5), &[25.0, 26.0]);
    let mut out = [9.0; 4];
    let mut refused = |segment: &Segment, times: &[i64]| {
        let answer = segment.grid(times, &mut out);
        assert_eq!(out, [9.0; 4]);
        answer.expect_err("a refusal")
    };
    assert_eq!(refused(&segment, &[0, 5]), Refusal::CountsDisagree);
    assert_eq!(refused(&segment, &[0, 5, 10]), Refusal::TimesNotAllowed);
    assert_eq!(refused(&segment, &[0, 5, 10, 10]), Refusal::TimesNotAllowed);
    assert_eq!(refused(&segment, &[0, 1, 2, 3, 4]), Refusal::OutputTooShort);
    let mut damaged = segment.clone();
    damaged.residuals.insert(0, 0x00);
    let no_window = Refusal::NoWindow { value: 0, place: 0 };
    assert_eq!(refused(&damaged, &[0, 1, 2, 3]), no_window);
    damaged.values = vec![4, 0, 0, 0, 0];
    assert_eq!(refused(&damaged, &[0, 1, 2, 3]), Refusal::FormNotAllowed);
    damaged.model_type_id = 2;
    assert_eq!(refused(&damaged, &[]), Refusal::OverLimit);
    assert_eq!(damaged.model(), Err(Refusal::OverLimit));
    assert_eq!(damaged.sum_over(&[]), Err(Refusal::OverLimit));
    assert_eq!(damaged.sum_by_average(&[]), Err(Refusal::OverLimit));
}

#[test]
fn a_line_to_infinity_is_stored_but_not_drawn() {
    let segment = written(Model::Swing(1.0, f32::INFINITY), Lossless, &[]);
    assert_eq!(segment.model(), Ok(Model::Swing(1.0, f32::INFINITY)));
    assert_eq!(segment.sum_over(&[0, 1]), Err(Refusal::NoModel));
    // A NaN at both ends is a line of NaNs.
    let unknown = written(Model::Swing(f32::NAN, f32::NAN), Lossless, &[]);
    assert_eq!(unknown.sum_by_average_bits(&[0, 1]), Ok(NAN));
    assert_eq!(unknown.sum_over_bits(&[0, 1]), Ok(NAN));
}

#[test]
fn parameters_come_back_in_every_form() {
    let mut out = [0; 8];
    for (residuals, length) in [((5.0, 6.0), 0), ((4.0, 5.0), 1), ((4.0, 6.0), 4)] {
        let (min, max) = residuals;
        assert_eq!(
            encode_values_for_pmc_mean(5.0, min, max, &mut out),
            Ok(length)
        );
        let read = decode_values_for_pmc_mean(min.min(5.0), max.max(5.0), &out[..length]);
        assert_eq!(read, Ok(5.0));
    }
    for ((first, last), (min, max), length) in [
        ((1.0, 2.0), (1.0, 2.0), 0),
        ((2.0, 1.0), (1.0, 2.0), 1),
        ((1.0, 2.0), (0.5, 1.5), 5),
        ((2.0, 1.0), (0.5, 1.5), 5),
        ((1.0, 2.0), (1.0, 3.0), 5),
        ((2.0, 1.0), (1.0, 3.0), 5),
        ((2.0, 1.0), (0.5, 3.0), 8),
    ] {
        let written = encode_values_for_swing(first, last, min, max, &mut out);
        assert_eq!(written, Ok(length));
        let read = decode_values_for_swing(min.min(1.0), max.max(2.0), &out[..length]);
        assert_eq!(read, Ok((first, last)));
    }
}

#[test]
fn parameters_take_every_nan_for_one() {
    let (odd, mut out) = (0xFFC1_2345, [0; 4]);
    assert_eq!(
        encode_values_for_pmc_mean_bits(odd, odd, odd, &mut out),
        Ok(0)
    );
    assert_eq!(decode_values_for_pmc_mean_bits(odd, odd, &[]), Ok(NAN));
    let [four, six] = [4f32, 6.0].map(f32::to_bits);
    assert_eq!(
        encode_values_for_pmc_mean_bits(odd, four, six, &mut out),
        Ok(4)
    );
    assert_eq!(out, NAN.to_le_bytes());
}
