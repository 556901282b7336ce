//! The smallest inputs of our readings of the running sum.

use oracle::paper::macaque_v::{MacaqueV, Opening, sum};
use oracle::paper::models::ErrorBound::{Absolute, Lossless};

const MINUS_ZERO: u32 = 0x8000_0000;
const ONE: u32 = 0x3F80_0000;
const ON_ZERO: Opening = Opening::On(0);

/// The sum's bits after the values, on a fresh state that is handed in with a sum.
fn after(opening: Opening, handed_in: u32, values: &[u32]) -> u32 {
    let fresh = MacaqueV::new(Lossless, opening).unwrap();
    let state = MacaqueV {
        sum: handed_in,
        ..fresh
    };
    let written = state.compress_values(values, &mut [0; 64]).unwrap();
    written.sum
}

#[test]
fn a_first_value_sets_it_and_another_is_added() {
    assert_eq!(after(Opening::WithFirst, ONE, &[MINUS_ZERO]), MINUS_ZERO);
    assert_eq!(after(ON_ZERO, ONE, &[MINUS_ZERO]), ONE);
    assert_eq!(after(Opening::WithFirst, ONE, &[]), ONE);
    assert_eq!(
        after(Opening::WithFirst, 0x4110_0000, &[ONE, ONE]),
        0x4000_0000
    );
    assert_eq!(after(ON_ZERO, ONE, &[ONE, ONE]), 0x4040_0000);
}

#[test]
fn a_nan_is_left_by_an_empty_write_and_plain_after_a_value() {
    let (odd, plain) = (0xFFC1_2345, 0x7FC0_0000);
    assert_eq!(after(ON_ZERO, odd, &[]), odd);
    assert_eq!(after(ON_ZERO, odd, &[ONE]), plain);
    assert_eq!(after(Opening::WithFirst, odd, &[ONE]), ONE);
    assert_eq!(after(Opening::WithFirst, 0, &[odd]), plain);
}

#[test]
fn an_opening_value_is_in_no_sum() {
    assert_eq!(sum(&[0x80, 0, 0, 0], 1, Opening::WithFirst), Ok(MINUS_ZERO));
    assert_eq!(sum(&[0xC0, 0x0C], 1, ON_ZERO), Ok(0));
    assert_eq!(sum(&[0xC0, 0x0C], 1, Opening::On(MINUS_ZERO)), Ok(0));
    assert_eq!(after(Opening::On(ONE), 0, &[]), 0);
}

#[test]
fn a_reopened_state_has_the_sum_of_its_first_values() {
    let fresh = MacaqueV::new(Absolute(0.5), Opening::WithFirst).unwrap();
    let mut buffer = [0; 64];
    // 20 and 20.25, which is kept as 20, and 23.
    let values = [0x41A0_0000, 0x41A2_0000, 0x41B8_0000];
    let state = fresh.compress_values(&values, &mut buffer).unwrap();
    assert_eq!(f32::from_bits(state.sum), 63.0);
    let used = state.place.div_ceil(8);
    for (k, sum) in [0.0, 20.0, 40.0, 63.0].into_iter().enumerate() {
        let mut copy = buffer;
        let again = MacaqueV::reopen(&mut copy, used, 3, k, Opening::WithFirst, Absolute(0.5));
        assert_eq!(f32::from_bits(again.unwrap().sum), sum);
    }
}
