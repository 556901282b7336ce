//! What was stored, in words.

use crate::readings::Readings;
use crate::store::Stored;
use modelardb_rattle::{Model, Refusal};
use std::fmt::Write;

const HEAD: &str = "byte from  to    model    readings draws          residuals bytes  PMC-Mean's cost  Swing's cost\n";

/// A line for each segment, what its columns mean, and what the segments save.
pub fn show(readings: &Readings, stored: &[Stored], m: usize) -> Result<String, Refusal> {
    let mut text = String::from(HEAD);
    let mut place = 0;
    for one in stored {
        let (from, to) = (&readings.names[one.from], &readings.names[one.end() - 1]);
        let (length, residuals, bytes) = (one.chosen.length(), one.residuals, one.bytes(m));
        let (name, draws) = model(one.segment.model()?);
        let (cost, other_cost) = costs(one, m);
        _ = writeln!(
            text,
            "{place:4} {from:5} {to:5} {name:8} {length:8} {draws:14} {residuals:9} {bytes:5}  {cost:15}  {other_cost}"
        );
        place += bytes;
    }
    text += &legend(m);
    let (count, plain) = (readings.values.len(), 4 * readings.values.len());
    _ = writeln!(
        text,
        "{count} readings in {} segments: {place} bytes, against {plain} as plain values: {:.0} % saved",
        stored.len(),
        100.0 * (1.0 - place as f64 / plain as f64)
    );
    text += &read_back(&readings.times, &readings.values, stored)?;
    Ok(text)
}

/// A model's name, and what it draws for its readings.
fn model(model: Model) -> (&'static str, String) {
    match model {
        Model::PMCMean(value) => ("PMC-Mean", format!("{value:.2}")),
        Model::Swing(first, last) => ("Swing", format!("{first:.2} to {last:.2}")),
    }
}

/// What each model costs for a reading.
fn costs(stored: &Stored, m: usize) -> (String, String) {
    let cost =
        |size: usize, length| format!("{size}/{length} = {:.2}", size as f32 / length as f32);
    let (pmc_mean, swing) = stored.lengths;
    (cost(m, pmc_mean), cost(m + 1, swing))
}

/// What a column says, where its name does not.
fn legend(m: usize) -> String {
    format!(
        "\
byte       where the segment begins
readings   how many the model stands for, and draws
residuals  how many follow them, kept one by one
bytes      {m} of metadata, the model's parameters, the residuals
cost       bytes a reading: {m} by how many PMC-Mean could stand for, {} by how many Swing could
           the smaller decides, before any rounding; at a tie, and where a line ends at no finite value, PMC-Mean
",
        m + 1
    )
}

/// The stored segments beside the readings: drawn again, and summed.
fn read_back(times: &[i64], values: &[f32], stored: &[Stored]) -> Result<String, Refusal> {
    let (mut widest, mut gaps, mut sum, mut count) = (0f32, 0, 0.0, 0);
    for one in stored {
        let (times, values) = (&times[one.from..one.end()], &values[one.from..one.end()]);
        let mut drawn = vec![0.0; values.len()];
        one.segment.grid(times, &mut drawn)?;
        for (value, drawn) in values.iter().zip(&drawn) {
            widest = widest.max((value - drawn).abs());
            gaps += usize::from(value.is_nan() != drawn.is_nan());
        }
        let total = one.segment.sum_over(times)?;
        if !total.is_nan() {
            sum += total;
            count += values.len();
        }
    }
    Ok(format!(
        "read back: at most {widest:.4} from the readings, {gaps} gaps lost or made up\n\
         {:.2} on the average, by the sums of the segments without a gap\n",
        sum / count as f32
    ))
}
