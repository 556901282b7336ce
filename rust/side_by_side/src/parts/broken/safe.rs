//! The safe types over the same calls, beside the paper's program.

use super::Broken;
use crate::context::Context;
use crate::face::{placed, safe_opening};
use crate::inputs::ONE;
use modelardb_rattle::{self as library, PlaceTable, Reader, Refusal, Segment, TabledWriter};
use oracle::paper::MOST_RESIDUALS;
use oracle::paper::macaque_v::{read_all, sum};
use std::result;

impl Broken {
    pub fn by_the_safe_calls(&self, context: &mut Context) {
        let (bytes, count) = (&self.bytes[..], self.count);
        let opening = safe_opening(self.opening);
        let rows = read_all(bytes, count, self.opening);
        let values = rows.map(|rows| rows.iter().map(|row| row.value).collect::<Vec<u32>>());
        let last = values
            .clone()
            .map(|values| values.last().copied().unwrap_or(0));
        let mut out = vec![0; count];
        let drawn = library::macaque_v::grid_bits(bytes, count, opening, &mut out);
        let said = [
            placed(drawn.map(|()| out)),
            placed(one_by_one(bytes, count, opening)),
        ];
        let input = || format!("safe calls on {self}");
        context.same("safe values", [values.clone(), values], said, input);
        let said = [
            placed(library::macaque_v::sum_bits(bytes, count, opening)),
            placed(library::macaque_v::last_value_bits(bytes, count, opening)),
        ];
        let paper = [sum(bytes, count, self.opening), last];
        context.same("safe sum and last", paper, said, input);
        self.reopened_and_stored(context, opening);
    }

    /// What is wrong with it by its writer, at a value of its own, and by a segment.
    fn reopened_and_stored(&self, context: &mut Context, opening: library::Opening) {
        let (mut buffer, used, count) = (self.bytes.clone(), self.bytes.len(), self.count);
        let lossless = library::ErrorBound::Lossless;
        let reopened =
            library::MacaqueV::reopen(&mut buffer, used, count, count, opening, lossless);
        let paper = read_all(&self.bytes, count, self.opening).map(|_| ());
        let input = || format!("safe calls on {self}");
        context.same("safe writer", paper, placed(reopened.map(|_| ())), input);
        let words = if count > 0 { &self.entry()[..] } else { &[] };
        let table = PlaceTable::from_words(words.to_vec());
        let reopened =
            TabledWriter::reopen(&mut buffer, used, count, count, opening, lossless, &table);
        let said = [
            reopened.map(|_| ()),
            table.check(&self.bytes, count, opening),
        ];
        context.same("safe table", [paper; 2], said.map(placed), input);
        if opening == library::Opening::First || !(1..=MOST_RESIDUALS).contains(&count) {
            return;
        }
        let times: Vec<i64> = (0..count as i64 + 2).collect();
        let segment = Segment {
            model_type_id: library::ModelBuilder::SWING_ID,
            min_value_bits: ONE,
            max_value_bits: ONE,
            values: vec![],
            residuals: [&self.bytes[..], &[count as u8]].concat(),
        };
        let drawn = segment.grid(&times, &mut vec![0.0; times.len()]);
        let sums = [segment.sum_by_average(&times), segment.sum_over(&times)];
        let [average, over] = sums.map(|sum| placed(sum.map(|_| ())));
        context.same(
            "safe segment",
            [paper; 3],
            [placed(drawn), average, over],
            input,
        );
    }
}

/// As many values as there are, and an end.
fn one_by_one(
    bytes: &[u8],
    count: usize,
    opening: library::Opening,
) -> result::Result<Vec<u32>, Refusal> {
    let mut reader = Reader::open(bytes, opening);
    let values: result::Result<Vec<u32>, Refusal> =
        (0..count).map(|_| reader.next_value_bits()).collect();
    let values = values?;
    reader.end()?;
    Ok(values)
}
