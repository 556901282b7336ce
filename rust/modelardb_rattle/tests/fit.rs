//! Fitting and the choice through the safe types: what a step leaves, and what is refused.

use modelardb_rattle::ErrorBound::{Absolute, Lossless, Relative};
use modelardb_rattle::{
    Line, ModelBuilder, PMCMean, Refusal, Swing, choose_model, choose_model_bits, pmc_mean, swing,
};

const NAN: u32 = 0x7FC0_0000;

#[test]
fn fresh_states_are_as_the_paper_says() {
    let average = PMCMean::new(Absolute(0.5)).unwrap();
    assert!(average.is_empty() && average.error_bound() == Absolute(0.5));
    assert_eq!(average.min_value().to_bits(), NAN);
    assert_eq!(average.max_value().to_bits(), NAN);
    assert_eq!(average.sum_of_values().to_bits(), 0);
    let line = Swing::new(Relative(5.0)).unwrap();
    assert!(line.is_empty() && line.error_bound() == Relative(5.0));
    assert_eq!((line.start_time(), line.end_time()), (0, 0));
    assert!(line.slopes().0.is_nan() && line.slopes().1.is_nan());
    assert_eq!(line.error_sums(), (0.0, 0.0));
}

#[test]
fn bounds_are_judged() {
    for bound in [Absolute(0.0), Absolute(f32::INFINITY), Relative(100.1)] {
        assert_eq!(PMCMean::new(bound), Err(Refusal::BoundNotAllowed));
        assert_eq!(Swing::new(bound), Err(Refusal::BoundNotAllowed));
        assert_eq!(ModelBuilder::new(bound), Err(Refusal::BoundNotAllowed));
        let chosen = choose_model(&[], &[], bound, 0);
        assert_eq!(chosen, Err(Refusal::BoundNotAllowed));
    }
}

#[test]
fn a_value_that_does_not_fit_leaves_the_state() {
    let mut average = PMCMean::new(Lossless).unwrap();
    let mut line = Swing::new(Lossless).unwrap();
    for (time, value) in [(0, 1.0), (1, 1.0)] {
        assert_eq!(average.fit_value(value), Ok(true));
        assert_eq!(line.fit_data_point(time, value), Ok(true));
    }
    let before = (average.clone(), line.clone());
    assert_eq!(average.fit_value(2.0), Ok(false));
    assert_eq!(line.fit_data_point(2, 2.0), Ok(false));
    assert_eq!((&average, &line), (&before.0, &before.1));
    // A model by itself may be tried again, at a time that has passed without a fit.
    assert_eq!(average.fit_value(1.0), Ok(true));
    assert_eq!(line.fit_data_point(2, 1.0), Ok(true));
}

#[test]
fn a_refused_step_leaves_the_state() {
    let latest = 1 << 52;
    let mut line = Swing::new(Lossless).unwrap();
    let mut builder = ModelBuilder::new(Lossless).unwrap();
    line.fit_data_point(latest, 1.0).unwrap();
    builder.try_to_update_models(latest, 1.0).unwrap();
    let before = (line.clone(), builder.clone());
    for time in [latest, latest + 1, -latest - 1, i64::MIN, i64::MAX] {
        let refused = Err(Refusal::TimesNotAllowed);
        assert_eq!(line.fit_data_point(time, 1.0), refused);
        assert_eq!(builder.try_to_update_models(time, 1.0), refused);
    }
    assert_eq!((line, builder), before);
}

#[test]
fn a_model_takes_65_536_values() {
    let mut average = PMCMean::new(Absolute(0.5)).unwrap();
    for _ in 0..65_536 {
        assert_eq!(average.fit_value(20.5), Ok(true));
    }
    let before = average.clone();
    assert_eq!(average.fit_value(20.5), Err(Refusal::OverLimit));
    assert_eq!(average, before);
    assert_eq!(average.bytes_per_value(65_535), Ok(65_535.0 / 65_536.0));
    for m in [0, 65_536, usize::MAX] {
        assert_eq!(average.bytes_per_value(m), Err(Refusal::OverLimit));
    }
}

#[test]
fn the_rule_in_one_call_is_the_rule_step_by_step() {
    let (times, values) = ([0, 5, 10, 15], [20.0, 20.75, 20.5, 20.125]);
    let mut builder = ModelBuilder::new(Absolute(0.5)).unwrap();
    for (&time, &value) in times.iter().zip(&values) {
        assert_eq!(builder.try_to_update_models(time, value), Ok(true));
    }
    assert!(builder.pmc_mean_could_fit_all() && !builder.swing_could_fit_all());
    let chosen = choose_model(&times, &values, Absolute(0.5), 12).unwrap();
    assert_eq!(builder.finish(12), Ok(chosen));
    assert_eq!((chosen.length(), chosen.last_value()), (4, 20.34375));
    let bits = values.map(f32::to_bits);
    assert_eq!(
        choose_model_bits(&times, &bits, Absolute(0.5), 12),
        Ok(chosen)
    );
}

/// The fewest readings of which the bytes a value tie in f32, where the whole numbers do not: 2949 × 2947 is less than
/// 2948 × 2948 by 1.
#[test]
fn the_choice_is_by_whole_numbers() {
    let (times, bound): (Vec<i64>, _) = ((0..2_948).collect(), Absolute(1_473.0));
    let values: Vec<f32> = (0..2_948u16).map(f32::from).collect();
    let mut builder = ModelBuilder::new(bound).unwrap();
    for (&time, &value) in times.iter().zip(&values) {
        assert_eq!(builder.try_to_update_models(time, value), Ok(true));
    }
    let lengths = [builder.pmc_mean_length(), builder.swing_length()];
    assert_eq!(lengths, [2_947, 2_948]);
    for (m, id, length) in [
        (2_947, ModelBuilder::PMC_MEAN_ID, 2_947),
        (2_948, ModelBuilder::SWING_ID, 2_948),
        (2_949, ModelBuilder::SWING_ID, 2_948),
    ] {
        let chosen = choose_model(&times, &values, bound, m).unwrap();
        assert_eq!((chosen.model_type_id(), chosen.length()), (id, length));
        assert_eq!(builder.finish(m), Ok(chosen));
    }
    let chosen = builder.finish(2_948).unwrap();
    assert_eq!((chosen.first_value(), chosen.last_value()), (0.0, 2_947.0));
    assert_eq!(chosen.bytes_per_value(), 2_948.0 / 2_947.0);
    assert_eq!(chosen.bytes_per_value(), 2_949.0 / 2_948.0);
}

#[test]
fn times_behind_the_chosen_model_are_judged() {
    // Both models stop at the second value.
    let values = [1.0, f32::NAN, 1.0];
    assert!(choose_model(&[0, 1, 2], &values, Lossless, 12).is_ok());
    let refused = choose_model(&[0, 1, 1], &values, Lossless, 12);
    assert_eq!(refused, Err(Refusal::TimesNotAllowed));
}

#[test]
fn a_refused_grid_leaves_the_output() {
    let line = Line {
        start_time: 0,
        end_time: 10,
        first_value: 1.0,
        last_value: 2.0,
    };
    let mut out = [9.0; 2];
    let refused = Err(Refusal::OutputTooShort);
    assert_eq!(pmc_mean::grid(1.0, 3, &mut out), refused);
    assert_eq!(swing::grid(line, &[0, 5, 10], &mut out), refused);
    let refused = Err(Refusal::TimesNotAllowed);
    assert_eq!(swing::grid(line, &[5, 5], &mut out), refused);
    assert_eq!(out, [9.0; 2]);
    swing::grid(line, &[5], &mut out).unwrap();
    assert_eq!(out, [1.5, 9.0]);
}

#[test]
fn a_state_is_shown_by_its_fields() {
    let mut builder = ModelBuilder::new(Absolute(0.5)).unwrap();
    builder.try_to_update_models(7, 20.5).unwrap();
    let shown = format!("{builder:?}");
    let average = "PMCMean { error_bound: Absolute(0.5), min_value: 20.5 (41A40000), \
                   max_value: 20.5 (41A40000), sum_of_values: 20.5 (4034800000000000), length: 1 }";
    let begin = format!("ModelBuilder {{ pmc_mean: {average}, pmc_mean_could_fit_all: true, ");
    assert!(shown.starts_with(&begin), "{shown}");
    assert!(shown.contains("Swing { error_bound: Absolute(0.5), start_time: 7, end_time: 7, "));
    assert!(shown.ends_with("length: 1 }, swing_could_fit_all: true }"));
    assert_eq!(
        format!("{:?}", builder.finish(12).unwrap()),
        "SelectedModel { model_type_id: 0, \
         length: 1, first_value: 20.5 (41A40000), last_value: 20.5 (41A40000), bytes_per_value: 12.0 }"
    );
}
