//! A call takes no more stack than its documentation says: here it runs in a thread that has that much and
//! what a thread needs besides.

use modelardb_rattle::{
    ErrorBound, Line, MacaqueV, ModelBuilder, Opening, PMCMean, PlaceTable, Refusal, Segment,
    Swing, TabledWriter, choose_model, is_value_within_error_bound, macaque_v,
    maximum_allowed_deviation, parameters, pmc_mean, swing,
};
use std::thread;

/// What the thread itself and the functions around a call take.
const BESIDES: usize = 32 << 10;

/// A stream of so many different values.
fn stream(count: usize) -> Result<Vec<u8>, Refusal> {
    let values: Vec<f32> = (0..count).map(|number| number as f32).collect();
    let mut buffer = vec![0; MacaqueV::most_bytes(count, Opening::First)?];
    let mut writer = MacaqueV::new(ErrorBound::Lossless, Opening::First)?;
    writer.compress_values(&values, &mut buffer)?;
    buffer.truncate(writer.bytes_used());
    Ok(buffer)
}

/// What a call answers in a thread of so much stack.
fn in_a_thread<T: Send + 'static>(stack: usize, call: impl FnOnce() -> T + Send + 'static) -> T {
    let small = thread::Builder::new().stack_size(stack);
    let answer = small.spawn(call).expect("a thread").join();
    answer.expect("the thread ends")
}

#[test]
fn a_grid_takes_5_kib_for_each_1024_values() {
    for blocks in [1, 2, 16, 64] {
        let count = 1024 * blocks;
        let bytes = stream(count).expect("room for the values");
        let mut out = vec![0.0; count];
        let read = move || {
            macaque_v::grid(&bytes, count, Opening::First, &mut out).map(|()| out[count - 1])
        };
        let last = in_a_thread(5 * 1024 * blocks + BESIDES, read);
        assert_eq!(last, Ok((count - 1) as f32));
    }
}

#[test]
fn a_range_takes_5_kib_for_each_1024_values() {
    for blocks in [1, 2, 16, 64] {
        let count = 1024 * blocks;
        let bytes = stream(count).expect("room for the values");
        let table = PlaceTable::from_words(vec![0, 0, 255, 0]);
        let read = move || table.range(&bytes, count, Opening::First, 0..count);
        let values = in_a_thread(5 * 1024 * blocks + BESIDES, read);
        assert_eq!(
            values.map(|values| values[count - 1]),
            Ok((count - 1) as f32)
        );
    }
}

#[test]
fn writing_reopening_rescuing_and_checking_with_a_table_take_less_than_16_kib() {
    let count = MacaqueV::MOST_VALUES;
    let entries = in_a_thread(16 << 10, move || {
        let values: Vec<f32> = (0..count).map(|number| number as f32).collect();
        let (lossless, first) = (ErrorBound::Lossless, Opening::First);
        let mut buffer = vec![0; MacaqueV::most_bytes(count, first)?];
        let mut writer = TabledWriter::new(lossless, first)?;
        writer.compress_values(&values, &mut buffer)?;
        let (used, table) = (writer.writer().bytes_used(), writer.table());
        table.check(&buffer[..used], count, first)?;
        table.range(&buffer[..used], count, first, count - 12..count)?;
        let on = TabledWriter::reopen(&mut buffer, used, count, count, first, lossless, table)?;
        let again = TabledWriter::rescue(&mut buffer, used, count, first, lossless)?;
        assert_eq!(again, on);
        Ok::<_, Refusal>(on.table().entries())
    });
    assert_eq!(entries, Ok(PlaceTable::entries_for(count)));
}

#[test]
fn writing_summing_reopening_and_rescuing_take_less_than_16_kib() {
    let count = MacaqueV::MOST_VALUES;
    let last = in_a_thread(16 << 10, move || {
        MacaqueV::most_bits(count, Opening::First)?;
        let mut bytes = stream(count)?;
        macaque_v::sum(&bytes, count, Opening::First)?;
        let (used, first, lossless) = (bytes.len(), Opening::First, ErrorBound::Lossless);
        MacaqueV::reopen(&mut bytes, used, count, count, first, lossless)?;
        MacaqueV::rescue(&mut bytes, used, count, first, lossless)?;
        let mut reader = macaque_v::Reader::open(&bytes, Opening::First);
        reader.next_value()?;
        macaque_v::last_value(&bytes, count, Opening::First)
    });
    assert_eq!(last, Ok((count - 1) as f32));
}

#[test]
fn fitting_choosing_storing_and_drawing_take_less_than_16_kib() {
    let last = in_a_thread(16 << 10, move || {
        let (times, values): (Vec<i64>, Vec<f32>) = (0..400).map(|n| (n, n as f32)).unzip();
        let mut builder = ModelBuilder::new(ErrorBound::Lossless)?;
        for (time, value) in times.iter().zip(&values) {
            builder.try_to_update_models(*time, *value)?;
        }
        let chosen = choose_model(&times, &values, ErrorBound::Lossless, 12)?;
        assert_eq!(builder.finish(12), Ok(chosen));
        let residuals = &values[..MacaqueV::MOST_RESIDUALS];
        let segment = Segment::write(chosen, ErrorBound::Lossless, residuals)?;
        segment.model()?;
        segment.sum_over(&times)?;
        segment.sum_by_average(&times)?;
        let mut out = vec![0.0; times.len()];
        segment.grid(&times, &mut out)?;
        pmc_mean::grid(20.5, 1, &mut out)?;
        Ok::<_, Refusal>(out[times.len() - 1])
    });
    assert_eq!(last, Ok((MacaqueV::MOST_RESIDUALS - 1) as f32));
}

#[test]
fn the_calls_on_one_model_take_less_than_16_kib() {
    let last = in_a_thread(16 << 10, move || {
        let half = ErrorBound::Absolute(0.5);
        is_value_within_error_bound(half, 20.0, 20.5)?;
        maximum_allowed_deviation(half, 20.0)?;
        let mut pmc_mean = PMCMean::new(half)?;
        let mut swing = Swing::new(half)?;
        for time in 0..400 {
            pmc_mean.fit_value(20.0)?;
            swing.fit_data_point(time, 20.0 + time as f32)?;
        }
        pmc_mean.model()?;
        pmc_mean.bytes_per_value(12)?;
        swing.model()?;
        swing.bytes_per_value(12)?;
        pmc_mean::sum(MacaqueV::MOST_VALUES, 20.5)?;
        let line = Line {
            start_time: 0,
            end_time: 65_535,
            first_value: 20.0,
            last_value: 22.0,
        };
        let times: Vec<i64> = (0..65_536).collect();
        swing::sum_by_average(line, times.len())?;
        swing::sum_over(line, &times)?;
        let mut out = vec![0.0; times.len()];
        swing::grid(line, &times, &mut out)?;
        let mut bytes = [0; 8];
        let used = parameters::encode_values_for_pmc_mean(5.0, 4.0, 6.0, &mut bytes)?;
        parameters::decode_values_for_pmc_mean(4.0, 6.0, &bytes[..used])?;
        let used = parameters::encode_values_for_swing(2.0, 1.0, 1.0, 3.0, &mut bytes)?;
        parameters::decode_values_for_swing(1.0, 3.0, &bytes[..used])?;
        Ok::<_, Refusal>(out[times.len() - 1])
    });
    assert_eq!(last, Ok(22.0));
}
