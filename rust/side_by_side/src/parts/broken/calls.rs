//! The calls of the C face.

use super::Broken;
use crate::context::Context;
use crate::face;
use crate::inputs::ONE;
use crate::lent::{STALE_VALUE, STALE_WORD};
use crate::parts::library_segments::both as segments;
use crate::parts::library_stream::both::{self, At};
use crate::parts::library_stream::reading;
use crate::parts::library_table::both as tables;
use modelardb_rattle::Fault;
use modelardb_rattle::ffi::{READER_WORDS, STATE_WORDS, StoredSegment};
use oracle::paper::MOST_RESIDUALS;
use oracle::paper::macaque_v::Opening;
use oracle::paper::refusal::LEFTOVER;

impl Broken {
    /// Drawn, summed, reopened behind none, some and all of its values, and read value by value.
    pub fn by_the_face(&self, context: &mut Context, told: Fault) {
        let Self { bytes, count, .. } = self;
        let (count, opening) = (*count, face::opening_words(self.opening));
        let out = vec![STALE_VALUE; count + 1];
        let (drawn, _) = both::read(context, both::GRID, (bytes, count, opening), &out);
        let (summed, _) = both::read(context, both::SUM, (bytes, count, opening), &out[..1]);
        let last = reading::last(context, bytes, count, opening, &out[..1]);
        let answers = [told; 3];
        context.same("the bits", answers, [drawn, summed, last], || {
            self.to_string()
        });
        for k in [0, count / 2, count] {
            let at = At {
                used: bytes.len(),
                count,
                k,
                opening,
                bound: (0, 0),
            };
            let (reopened, ..) = both::reopened(context, bytes, at, &[STALE_WORD; STATE_WORDS]);
            context.same("the bits", told, reopened, || format!("{self} at {k}"));
        }
        self.value_by_value(context, told);
        self.with_a_table(context, told);
    }

    /// With its place table, of one entry or of none: checked, reopened, and all of it as a range, where 8 is not
    /// judged.
    fn with_a_table(&self, context: &mut Context, told: Fault) {
        let Self { bytes, count, .. } = self;
        let opening = face::opening_words(self.opening);
        let entry = self.entry();
        let table = tables::Table::new(&entry, usize::from(*count > 0));
        let stream = (&bytes[..], *count, opening);
        let checked = tables::checked(context, stream, &table);
        let out = vec![STALE_VALUE; *count];
        let (range, _) = tables::ranged(context, stream, &table, 0..*count, &out);
        let before = tables::Writer {
            row: vec![STALE_WORD; STATE_WORDS],
            buffer: bytes.clone(),
            table,
        };
        let at = At {
            used: bytes.len(),
            count: *count,
            k: count / 2,
            opening,
            bound: (0, 0),
        };
        let (reopened, _) = tables::reopened(context, &before, at);
        let of_range = match told.number {
            LEFTOVER => Fault::ACCEPTED,
            _ => told,
        };
        let (expected, answers) = ([told, told, of_range], [checked, reopened, range]);
        context.same("the bits", expected, answers, || self.to_string());
    }

    /// By a reader: its next is refused where the others are, or its end is.
    fn value_by_value(&self, context: &mut Context, told: Fault) {
        let opening = face::opening_words(self.opening);
        let (_, mut row) = reading::opened(context, opening, &[STALE_WORD; READER_WORDS]);
        let (mut read, mut answer) = (0, Fault::ACCEPTED);
        while read < self.count && answer == Fault::ACCEPTED {
            (answer, row, _) = reading::next(context, &self.bytes, &row, &[STALE_VALUE]);
            read += usize::from(answer == Fault::ACCEPTED);
        }
        let end = reading::ended(context, &self.bytes, &row);
        if answer == Fault::ACCEPTED {
            answer = end;
        }
        context.same("the bits", told, answer, || self.to_string());
        if end.number == LEFTOVER {
            let value = end.value as usize;
            context.same("how many were read", read, value, || self.to_string());
        }
    }

    /// As the residuals of a segment of each model, which is 1.0 all along.
    pub fn in_a_segment(&self, context: &mut Context, told: Fault) {
        let is_residuals = (1..=MOST_RESIDUALS).contains(&self.count);
        if self.opening == Opening::WithFirst || !is_residuals {
            return;
        }
        let residuals = [&self.bytes[..], &[self.count as u8]].concat();
        let times: Vec<i64> = (0..self.count as i64 + 2).collect();
        let out = vec![STALE_VALUE; times.len()];
        for model in [0, 1] {
            let segment = StoredSegment {
                model,
                extremes: (ONE, ONE),
                values: &[],
                residuals: &residuals,
            };
            let (drawn, _) = segments::read(context, segments::GRID, segment, &times, &out);
            let sums = [segments::BY_AVERAGE, segments::OVER];
            let [average, over] =
                sums.map(|sum| segments::read(context, sum, segment, &times, &out[..1]).0);
            let input = || format!("model {model}, {self}");
            context.same("the bits", [told; 3], [drawn, average, over], input);
        }
    }
}
