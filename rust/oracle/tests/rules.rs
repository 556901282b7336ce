//! The within test and the choice by both rules, and the switch between them, on inputs that the documents name.

use oracle::paper::macaque_v::kept;
use oracle::paper::models::ErrorBound::{self, Absolute, Lossless, Relative};
use oracle::paper::models::within;
use oracle::paper::rules::{Rules, as_first, in_force};
use oracle::paper::types::{Model, ModelBuilder, PMC_MEAN_ID, SWING_ID, choose_model, swing_wins};
use oracle::paper::{MOST_METADATA, MOST_VALUES};

#[test]
fn the_first_rules_are_in_force_inside_alone() {
    assert_eq!(in_force(), Rules::Today);
    assert_eq!(as_first(in_force), Rules::First);
    assert_eq!(as_first(|| as_first(in_force)), Rules::First);
    assert_eq!(
        as_first(|| (as_first(in_force), in_force()).1),
        Rules::First
    );
    assert_eq!(in_force(), Rules::Today);
}

#[test]
fn a_panic_leaves_the_rules_as_they_were() {
    let panicked = std::panic::catch_unwind(|| as_first(|| panic!("inside")));
    assert!(panicked.is_err());
    assert_eq!(in_force(), Rules::Today);
}

#[test]
fn another_thread_has_its_own() {
    let there = as_first(|| std::thread::spawn(in_force).join());
    assert_eq!(there.ok(), Some(Rules::Today));
}

/// The answers today and by the first rules.
fn both(bound: ErrorBound, real: f32, approximate: f32) -> (bool, bool) {
    let ask = || within(bound, real, approximate);
    (ask(), as_first(ask))
}

/// A yes of today's rules alone, and of the first ones alone.
const TODAY_ALONE: (bool, bool) = (true, false);
const FIRST_ALONE: (bool, bool) = (false, true);

#[test]
fn pairs_that_the_tests_answer_otherwise() {
    for (bound, real, approximate, answers) in [
        (Relative(28.0), 25.0, 18.0, FIRST_ALONE),
        (Relative(28.0), -25.0, -18.0, FIRST_ALONE),
        (Relative(7.0), 100.0, 107.0, FIRST_ALONE),
        (Relative(15.0), 20.0, 17.0, TODAY_ALONE),
        (Relative(15.0), 20.0, 23.0, TODAY_ALONE),
        (Relative(20.0), 19.0, 15.2, FIRST_ALONE),
        (Absolute(0.4), 0.1, -0.3, FIRST_ALONE),
        // 2^24 + 1 is no f32, and is rounded to the bound.
        (Absolute(16_777_216.0), 16_777_216.0, -1.0, FIRST_ALONE),
    ] {
        let input = format!("{real} within {bound:?} of {approximate}");
        assert_eq!(both(bound, real, approximate), answers, "{input}");
    }
}

#[test]
fn what_both_tests_answer_alike() {
    let (nan, infinity) = (f32::NAN, f32::INFINITY);
    for (bound, real, approximate, answer) in [
        (Lossless, 1.0, 1.0, true),
        (Lossless, 0.0, -0.0, true),
        (Lossless, nan, -nan, true),
        (Lossless, 1.0, 1.0f32.next_up(), false),
        (Absolute(0.5), nan, 1.0, false),
        (Absolute(f32::MAX), infinity, 1.0, false),
        (Absolute(f32::MAX), f32::MAX, -f32::MAX, false),
        (Relative(100.0), 1.0, 0.0, true),
        (Relative(100.0), 0.0, 1.0, false),
        (Relative(100.0), infinity, 1.0, false),
        (Absolute(0.5), 20.0, 20.5, true),
        (Relative(5.0), 20.0, 21.0, true),
        (Relative(1.0), 100.0, 99.0, true),
    ] {
        let input = format!("{real} within {bound:?} of {approximate}");
        assert_eq!(both(bound, real, approximate), (answer, answer), "{input}");
    }
}

/// About each end of the range and each power of two between them.
#[test]
fn under_an_absolute_bound_the_test_in_f64_lets_nothing_more_through() {
    let patterns = || {
        (0..=255u32).flat_map(|exponent| {
            let power = exponent << 23;
            [power.wrapping_sub(1), power, power + 1].map(|bits| f32::from_bits(bits & 0x7FFF_FFFF))
        })
    };
    for real in patterns() {
        for approximate in patterns().flat_map(|value| [value, -value]) {
            let distance = (real - approximate).abs();
            for bound in [distance.next_down(), distance, distance.next_up()].map(Absolute) {
                if bound.is_allowed() {
                    let answers = both(bound, real, approximate);
                    assert_ne!(answers, TODAY_ALONE, "{real} {bound:?} {approximate}");
                }
            }
        }
    }
}

/// What docs/THE-RULE.md says of whole numbers that lie exactly at a bound of a whole per cent.
#[test]
fn whole_per_cents() {
    for percent in 1..=100u16 {
        let expected = (
            ![7, 14, 28, 55, 56].contains(&percent),
            ![15, 27, 30, 54, 60].contains(&percent),
        );
        let bound = Relative(percent.into());
        for hundreds in 1..=160 {
            let (real, away) = (100 * hundreds, percent * hundreds);
            for approximate in [real - away, real + away] {
                let answers = both(bound, real.into(), approximate.into());
                assert_eq!(answers, expected, "{real} and {approximate}");
            }
        }
    }
}

/// The test of a stream's last value, and of the bits that are cleared.
#[test]
fn a_stream_keeps_by_the_rules_in_force() {
    let keep = |percent, last: f32, input: f32| {
        let ask = || f32::from_bits(kept(Relative(percent), last.to_bits(), input.to_bits()));
        (ask(), as_first(ask))
    };
    assert_eq!(keep(28.0, 18.0, 25.0), (24.0, 18.0));
    assert_eq!(keep(15.0, 17.0, 20.0), (17.0, 20.0));
}

/// Two products that are equal, the greatest ones among them, and two that part.
#[test]
fn the_choice_is_by_products_and_was_by_costs() {
    let (most_m, most) = (MOST_METADATA, MOST_VALUES);
    for (m, pmc_mean, swing, answers) in [
        (12, 2, 3, (true, true)),
        (12, 12, 13, (false, false)),
        (12, 12, 14, (true, true)),
        // 3 × 2 = 2 × 3.
        (2, 2, 3, (false, false)),
        (2_948, 2_947, 2_947, (false, false)),
        (2_948, 2_947, 2_948, TODAY_ALONE),
        (2_948, 2_947, 2_949, (true, true)),
        (2_948, 2_948, 2_949, (false, false)),
        (most_m, most - 2, most - 1, TODAY_ALONE),
        // 65,536 × 65,535 = 65,535 × 65,536.
        (most_m, most - 1, most, (false, false)),
        // 65,536 × 65,536 = 2^32.
        (most_m, most, most, (false, false)),
        (most_m, most, 1, (false, false)),
        (most_m, 1, most, (true, true)),
    ] {
        let ask = || swing_wins(m, pmc_mean, swing);
        let input = format!("M {m}, PMC {pmc_mean}, Swing {swing}");
        assert_eq!((ask(), as_first(ask)), answers, "{input}");
    }
}

/// What is chosen of a model's kind and length, today and by the first rules.
fn chosen(ask: impl Fn() -> Model) -> [(u32, usize); 2] {
    let said = || {
        let model = ask();
        (model.id, model.length)
    };
    [said(), as_first(said)]
}

/// The builder after whole numbers from 0 on, at as many times, of which PMC takes so many.
fn whole_numbers(pmc_mean: u16, swing: u16) -> ModelBuilder {
    let bound = Absolute((f32::from(pmc_mean) - 1.0) / 2.0);
    let step = |builder: ModelBuilder, at: u16| {
        let next = builder.try_to_update_models(at.into(), f32::from(at).to_bits());
        next.expect("an allowed step").1
    };
    let fresh = ModelBuilder::new(bound).expect("an allowed bound");
    (0..swing).fold(fresh, step)
}

#[test]
fn the_fewest_readings_of_which_the_choice_parts() {
    let values: Vec<u32> = (0..2_948u16).map(|at| f32::from(at).to_bits()).collect();
    let times: Vec<i64> = (0..2_948).collect();
    let ask = || choose_model(&times, &values, Absolute(1_473.0), 2_948).expect("a model");
    let parted = [(SWING_ID, 2_948), (PMC_MEAN_ID, 2_947)];
    assert_eq!(chosen(ask), parted);
    // "The reported bytes per value stay f32."
    let costs = [ask(), as_first(ask)].map(|model| f32::from_bits(model.bytes_per_value));
    assert_eq!(costs, [2_949.0 / 2_948.0, 2_948.0 / 2_947.0]);
    assert_eq!(costs[0], costs[1]);

    let builder = whole_numbers(2_947, 2_948);
    let of_size = |m| chosen(|| builder.finish(m).expect("a model"));
    assert_eq!(of_size(2_948), parted);
    // With an M less, 2,948 × 2,947 = 2,947 × 2,948.
    assert_eq!(of_size(2_947), [parted[1]; 2]);
    assert_eq!(of_size(MOST_METADATA), [parted[0]; 2]);
}

#[test]
fn an_equal_product_goes_to_pmc() {
    let values = [20f32, 21.0, 22.0].map(f32::to_bits);
    for (m, model) in [
        (1, (PMC_MEAN_ID, 2)),
        (2, (PMC_MEAN_ID, 2)),
        (3, (SWING_ID, 3)),
    ] {
        let ask = || choose_model(&[0, 5, 10], &values, Absolute(0.5), m).expect("a model");
        assert_eq!(chosen(ask), [model; 2], "M {m}");
    }
}

/// "Added: where Swing wins with a finite first and a non-finite last value (both as f32), PMC's model is taken."
#[test]
fn the_added_rule_follows() {
    let mut builder = ModelBuilder::new(Absolute(3e38)).expect("an allowed bound");
    for (time, value) in [(0, f32::MIN), (1, f32::MAX)] {
        let step = builder.try_to_update_models(time, value.to_bits());
        (_, builder) = step.expect("an allowed step");
    }
    for (pmc_mean, swing) in [(1, 2), (2_947, 2_948), (2_947, MOST_VALUES)] {
        builder.pmc_mean.length = pmc_mean;
        builder.swing.length = swing;
        assert!(swing_wins(2_948, pmc_mean, swing));
        let ask = || builder.finish(2_948).expect("a model");
        assert_eq!(chosen(ask), [(PMC_MEAN_ID, pmc_mean); 2]);
    }
}
