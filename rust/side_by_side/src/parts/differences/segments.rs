//! The rows about parameter bytes and segments.

use super::said::{Row, bytes, decimal, pattern, row, values};
use crate::face::safe_bound;
use crate::inputs::{INFINITY, ONE, TWO};
use modelardb_rattle::parameters as ours;
use modelardb_rattle::{self as library, Refusal};
use oracle::paper::models::ErrorBound::{self, Absolute, Lossless};
use oracle::paper::numbers::{NAN_32, canonical};
use oracle::paper::segments::{Segment, write};
use oracle::paper::types::{
    Extremes, Model, decode_values_for_pmc_mean, decode_values_for_swing, pmc_mean_bytes,
    swing_bytes,
};
use oracle::paper::{Answer, MOST_VALUES, Read};
use oracle::rust::Calls;

const NONE: Extremes = Extremes {
    min_value: NAN_32,
    max_value: NAN_32,
};
const PMC_MEAN: u32 = 0;
const SWING: u32 = 1;

pub fn rows() -> Vec<Row> {
    let mut rows: Vec<Row> = parameters().into();
    rows.extend(forms());
    rows.extend(kept_residuals());
    rows.extend(payloads());
    rows.extend(times());
    rows.extend(refused());
    rows.extend(counts());
    rows.extend(written());
    rows.push(written_and_read());
    rows
}

/// A segment as it is stored, and its times.
#[derive(Clone)]
struct Stored {
    model: u32,
    extremes: Extremes,
    values: Vec<u8>,
    residuals: Vec<u8>,
    times: Vec<i64>,
}

impl Stored {
    /// Written Lossless by the paper.
    fn new(model: u32, ends: (u32, u32), residuals: &[u32], times: &[i64]) -> Self {
        let (mut parameters, mut stream) = ([0; 8], [0; 64]);
        let written = write(
            model,
            ends,
            Lossless,
            residuals,
            &mut parameters,
            &mut stream,
        );
        let written = written.expect("room for both outputs");
        Self {
            model,
            extremes: written.extremes,
            values: parameters[..written.values_length].to_vec(),
            residuals: stream[..written.residuals_length].to_vec(),
            times: times.to_vec(),
        }
    }

    fn with_residuals(mut self, residuals: &[u8]) -> Self {
        self.residuals = residuals.to_vec();
        self
    }

    fn of_paper(&self) -> Segment<'_> {
        Segment {
            model: self.model,
            timestamps: &self.times,
            extremes: self.extremes,
            values: &self.values,
            residuals: &self.residuals,
        }
    }

    fn of_library(&self) -> library::Segment {
        library::Segment {
            model_type_id: self.model,
            min_value_bits: self.extremes.min_value,
            max_value_bits: self.extremes.max_value,
            values: self.values.clone(),
            residuals: self.residuals.clone(),
        }
    }

    /// The grids of the paper and of the library.
    fn grids(&self) -> (Read<Vec<u32>>, Result<Vec<u32>, Refusal>) {
        let (mut out, mut ours) = (vec![0; self.times.len()], vec![0; self.times.len()]);
        let paper = self.of_paper().grid(&mut out).map(|()| out);
        let library = self.of_library().grid_bits(&self.times, &mut ours);
        (paper, library.map(|()| ours))
    }

    /// Its values, drawn.
    fn drawn(self, input: &'static str) -> Row {
        let here = self.grids();
        let there = move |rust: &Calls| (rust.segment_grid)(self.of_paper());
        row(input, here, there, values)
    }

    /// The same with the payloads of NaNs left out.
    fn drawn_without_payloads(self, input: &'static str) -> Row {
        let here = self.grids();
        let there = move |rust: &Calls| (rust.segment_grid)(self.of_paper());
        row(input, here, there, |drawn| {
            values(drawn.into_iter().map(canonical).collect())
        })
    }

    /// Its last value by its pattern.
    fn last(self, input: &'static str) -> Row {
        let here = self.grids();
        let there = move |rust: &Calls| (rust.segment_grid)(self.of_paper());
        let last = |drawn: Vec<u32>| drawn.last().map_or(String::new(), |&last| pattern(last));
        row(input, here, there, last)
    }

    /// Its sum, over the times.
    fn summed(self, input: &'static str) -> Row {
        let paper = self.of_paper().sum_over_times();
        let library = self.of_library().sum_over_bits(&self.times);
        let there = move |rust: &Calls| (rust.segment_sum)(self.of_paper());
        row(input, (paper, library), there, decimal)
    }
}

/// Parameter bytes, and what they read back as.
type Form = (Vec<u8>, String);

fn form((form, read): Form) -> String {
    format!("{}, read as {read}", bytes(form))
}

/// 5: Parameters that do not read back there.
fn parameters() -> [Row; 3] {
    let four_to_six = Extremes {
        min_value: 4f32.to_bits(),
        max_value: 6f32.to_bits(),
    };
    let read = move |bytes: Vec<u8>| {
        let value = decode_values_for_pmc_mean(four_to_six, &bytes);
        (bytes, value.map_or("none".to_string(), decimal))
    };
    let mut out = [0; 8];
    let (min, max) = (four_to_six.min_value, four_to_six.max_value);
    let length = ours::encode_values_for_pmc_mean_bits(NAN_32, min, max, &mut out);
    let library = length.map(|length| read(out[..length].to_vec()));
    let paper: Answer<Form> = Ok(read(pmc_mean_bytes(NAN_32, four_to_six)));
    let of_pmc_mean = row(
        "parameter bytes of PMC-Mean NaN, residuals 4 to 6",
        (paper, library),
        move |rust| Some(read((rust.encode_pmc)(NAN_32, four_to_six))),
        form,
    );
    [
        of_pmc_mean,
        of_swing(
            "parameter bytes of Swing 1 to NaN, no residuals",
            (ONE, NAN_32),
        ),
        of_swing(
            "parameter bytes of Swing −0 to 0, no residuals",
            (1 << 31, 0),
        ),
    ]
}

fn of_swing(input: &'static str, (first, last): (u32, u32)) -> Row {
    let read = move |bytes: Vec<u8>| {
        let ends = decode_values_for_swing(Extremes::of_model(first, last), &bytes);
        let said = |(first, last)| format!("{} to {}", decimal(first), decimal(last));
        (bytes, ends.map_or("none".to_string(), said))
    };
    let mut out = [0; 8];
    let length = ours::encode_values_for_swing_bits(first, last, NAN_32, NAN_32, &mut out);
    let library = length.map(|length| read(out[..length].to_vec()));
    let paper: Answer<Form> = Ok(read(swing_bytes(first, last, NONE)));
    let there = move |rust: &Calls| Some(read((rust.encode_swing)(first, last, NONE)));
    row(input, (paper, library), there, form)
}

/// 10: Forms that there are not.
fn forms() -> [Row; 2] {
    let three = [0; 3];
    let flag = [4, 0, 0, 0, 0];
    [
        row(
            "3 parameter bytes of PMC-Mean",
            (
                decode_values_for_pmc_mean(NONE, &three),
                ours::decode_values_for_pmc_mean_bits(NAN_32, NAN_32, &three),
            ),
            move |rust| (rust.decode_pmc)(NONE, &three),
            decimal,
        ),
        row(
            "parameter bytes `04 00 00 00 00` of Swing",
            (
                decode_values_for_swing(NONE, &flag),
                ours::decode_values_for_swing_bits(NAN_32, NAN_32, &flag),
            ),
            move |rust| (rust.decode_swing)(NONE, &flag),
            |(first, last)| format!("{} to {}", decimal(first), decimal(last)),
        ),
    ]
}

/// 3 and 4: The residuals of a line.
fn kept_residuals() -> [Row; 2] {
    let start = 1_700_000_000_000_000;
    let times = [start, start + 1000, start + 2000, start + 3000];
    let ends = (20.03f32.to_bits(), 20.21f32.to_bits());
    let opened = Stored::new(SWING, ends, &[25f32.to_bits()], &times);
    let residuals = [9f32.to_bits(), 9.5f32.to_bits()];
    let summed = Stored::new(
        SWING,
        (ONE, 3f32.to_bits()),
        &residuals,
        &[0, 10, 20, 31, 40],
    );
    [
        opened.last(
            "Swing 20.03 to 20.21 at 1.7e15 + 0, 1000, 2000, residual 25 at + 3000: the last value",
        ),
        summed.summed("Swing 1 to 3 at 0, 10, 20, residuals 9, 9.5 at 31, 40: the sum"),
    ]
}

/// 7: A NaN model is read with its payload there, and residuals open on that; a line of NaNs is drawn with a
/// computed one.
fn payloads() -> [Row; 2] {
    let residual = Stored::new(PMC_MEAN, (NAN_32, NAN_32), &[NAN_32 + 1], &[0, 1]);
    let mut line = Stored::new(SWING, (NAN_32, NAN_32), &[], &[0, 1]);
    line.values = [0x7FC1_2345u32.to_le_bytes(); 2].concat();
    [
        residual.drawn("PMC-Mean NaN at 0, residual 7FC00001 at 1"),
        line.drawn("Swing 7FC12345 to 7FC12345 at 0, 1, in 8 parameter bytes"),
    ]
}

/// 9: Times that are not allowed.
fn times() -> Vec<Row> {
    let one = |times: &[i64]| Stored::new(PMC_MEAN, (ONE, ONE), &[], times);
    let line = |last| Stored::new(SWING, (ONE, last), &[], &[5]);
    let many: Vec<i64> = (0..=MOST_VALUES as i64).collect();
    vec![
        one(&[0, 0]).drawn("PMC-Mean 1 at 0, 0"),
        one(&[10, 0]).drawn("PMC-Mean 1 at 10, 0"),
        one(&[(1 << 52) + 1]).drawn("PMC-Mean 1 at 2^52 + 1"),
        line(TWO).drawn_without_payloads("Swing 1 to 2 at 5 alone"),
        line(ONE).drawn("Swing 1 to 1 at 5 alone"),
        line(ONE).summed("Swing 1 to 1 at 5 alone: the sum"),
        one(&many).drawn("PMC-Mean 1 at 65,537 times"),
        one(&many).summed("PMC-Mean 1 at 65,537 times: the sum"),
        Stored::new(SWING, (ONE, INFINITY), &[], &[0, 10])
            .drawn_without_payloads("Swing 1 to infinity at 0, 10"),
    ]
}

/// 8 and 10: Models that there are not.
fn refused() -> [Row; 3] {
    let model = |model, values: &[u8]| Stored {
        model,
        extremes: NONE,
        values: values.to_vec(),
        residuals: vec![],
        times: vec![7],
    };
    let stream = [0x3F, 0x80, 0, 0];
    [
        model(2, &stream).drawn("a segment of model 2 at 7, values `3F 80 00 00`"),
        model(2, &stream).summed("a segment of model 2 at 7, values `3F 80 00 00`: the sum"),
        model(3, &[]).drawn("a segment of model 3 at 7"),
    ]
}

/// 9 and 10: Count bytes.
fn counts() -> Vec<Row> {
    let one = |residuals| Stored::new(PMC_MEAN, (ONE, ONE), &[], &[5]).with_residuals(residuals);
    vec![
        one(&[0x80, 0]).drawn("PMC-Mean 1 at 5, residual bytes `80 00`"),
        one(&[0x80, 0]).summed("PMC-Mean 1 at 5, residual bytes `80 00`: the sum"),
        one(&[0]).drawn("PMC-Mean 1 at 5, residual bytes `00`"),
        one(&[0x80, 1]).drawn("PMC-Mean 1 at 5, residual bytes `80 01`"),
        one(&[0x80, 1]).summed("PMC-Mean 1 at 5, residual bytes `80 01`: the sum"),
        one(&[0xA0, 2]).drawn("PMC-Mean 1 at 5, residual bytes `A0 02`"),
        one(&[0xA0, 2]).summed("PMC-Mean 1 at 5, residual bytes `A0 02`: the sum"),
    ]
}

/// PMC-Mean's model of a value.
fn pmc_mean(value: u32) -> Model {
    Model {
        id: PMC_MEAN,
        length: 1,
        first_value: value,
        last_value: value,
        bytes_per_value: 0,
    }
}

/// 9 and 10: Segments that are not written here.
fn written() -> [Row; 2] {
    [
        written_one(
            "a segment of PMC-Mean 1, Absolute(0), residual 1",
            Absolute(0.0),
            vec![ONE],
        ),
        written_one(
            "a segment of PMC-Mean 1, Lossless, 256 residuals",
            Lossless,
            vec![ONE; 256],
        ),
    ]
}

fn written_one(input: &'static str, bound: ErrorBound, residuals: Vec<u32>) -> Row {
    let mut out = [0; 1500];
    let paper = write(
        PMC_MEAN,
        (ONE, ONE),
        bound,
        &residuals,
        &mut [0; 8],
        &mut out,
    );
    let paper = paper.map(|written| out[..written.residuals_length].to_vec());
    let model = library::Model::PMCMean(1.0);
    let ours = library::Segment::write_bits(model, safe_bound(bound), &residuals);
    let there =
        move |rust: &Calls| Some((rust.segment_write)(pmc_mean(ONE), bound, &residuals).residuals);
    let count_byte = |bytes: Vec<u8>| format!("count byte {}", bytes.last().unwrap_or(&0));
    row(
        input,
        (paper, ours.map(|ours| ours.residuals)),
        there,
        count_byte,
    )
}

/// 5: A NaN model with a residual, by each side's own writer and reader.
fn written_and_read() -> Row {
    let (residual, times) = (5f32.to_bits(), [0, 1]);
    let paper = Stored::new(PMC_MEAN, (NAN_32, NAN_32), &[residual], &times)
        .grids()
        .0;
    let model = library::Model::PMCMean(f32::NAN);
    let ours = library::Segment::write_bits(model, library::ErrorBound::Lossless, &[residual]);
    let ours = ours.and_then(|segment| {
        let mut out = [0; 2];
        segment.grid_bits(&times, &mut out).map(|()| out.to_vec())
    });
    let there = move |rust: &Calls| {
        let written = (rust.segment_write)(pmc_mean(NAN_32), Lossless, &[residual]);
        (rust.segment_grid)(Segment {
            model: PMC_MEAN,
            timestamps: &times,
            extremes: written.extremes,
            values: &written.values,
            residuals: &written.residuals,
        })
    };
    let input = "PMC-Mean NaN at 0, residual 5 at 1, written and read by each side";
    row(input, (paper, ours), there, values)
}
