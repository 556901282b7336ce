//! Every cause of refusal with every other. Each choice below carries the number of the cause that it
//! brings in, or 0; the call must answer the first of them in document 01's order.

mod of_parts;
mod of_reading;

use super::both;
use super::source::Source;
use crate::context::Context;
use crate::inputs::{NAN, ONE, TWO};
use crate::lent::{STALE, STALE_VALUE, STALE_WORD};
use crate::order::{BOUNDS, in_order, rooms};
use modelardb_rattle::ffi::{Pair, SEGMENT_WORDS, Words};
use of_parts::{FORMS, MODELS};
use oracle::paper::refusal::{FORM, LIMIT, OUTPUT};

const FIVE: u32 = 0x40A0_0000;

pub fn causes(context: &mut Context) {
    of_encoding(context);
    of_decoding(context);
    of_writing(context);
    of_reading::causes(context);
}

/// Residuals' extremes for PMC 5 and for the line from 5 to 5, with the lengths of their forms.
const RESIDUALS: [(Pair, [usize; 2]); 4] = [
    ((NAN, NAN), [0, 1]),
    ((ONE, FIVE), [1, 5]),
    ((TWO, 0x40C0_0000), [4, 8]),
    ((FIVE, FIVE), [0, 1]),
];

/// Both outputs: the bytes and the row.
fn of_encoding(context: &mut Context) {
    for (residuals, lengths) in RESIDUALS {
        for (model, length) in [0, 1].into_iter().zip(lengths) {
            for (words, short_row) in rooms(1) {
                for (room, short) in sizes_about(length) {
                    let model = (model, (FIVE, FIVE));
                    let (out, row) = (vec![STALE; room], vec![STALE_WORD; words]);
                    let (fault, ..) = both::encoded(context, model, residuals, &out, &row);
                    in_order(context, &[short_row, short], fault, || {
                        format!("parameters of {model:X?} {residuals:X?}, room {room}, {words}")
                    });
                }
            }
        }
    }
}

/// Room for one place less, for just enough, and for more.
fn sizes_about(length: usize) -> Vec<(usize, u32)> {
    let short = length.checked_sub(1).map(|room| (room, OUTPUT));
    short
        .into_iter()
        .chain([(length, 0), (length + 2, 0)])
        .collect()
}

fn of_decoding(context: &mut Context) {
    for (values, segment, causes) in FORMS {
        for (model, cause) in [0, 1].into_iter().zip(causes) {
            let cause = if cause == FORM { FORM } else { 0 };
            for (room, short) in rooms(1 + model as usize) {
                let out = vec![STALE_VALUE; room];
                let (fault, _) = both::decoded(context, model, segment, values, &out);
                in_order(context, &[cause, short], fault, || {
                    format!("parameters {values:02X?} of {model}, room {room}")
                });
            }
        }
    }
}

/// A bound, a model, a number of residuals and three rooms that are allowed or not, in every mixture.
fn of_writing(context: &mut Context) {
    for (bound, of_bound) in BOUNDS {
        for (model, of_model) in MODELS {
            for (count, over) in [(0, 0), (1, 0), (255, 0), (256, LIMIT), (300, LIMIT)] {
                let causes = [of_bound, of_model, over];
                in_every_room(context, &source(model, bound, count), causes);
            }
        }
    }
}

/// A line from 1 to 5, or PMC 1, with residuals about it.
fn source(model: u32, bound: Words, count: usize) -> Source {
    let values = [0x3F00_0000, FIVE, 0x40C0_0000, NAN];
    Source {
        model,
        ends: (ONE, FIVE),
        bound,
        residuals: values.into_iter().cycle().take(count).collect(),
    }
}

fn in_every_room(context: &mut Context, source: &Source, causes: [u32; 3]) {
    let (_, (.., row)) = both::written(context, source, &source.outputs());
    let is_refused = causes.iter().any(|&cause| cause > 0);
    let lengths = if is_refused {
        (8, 9)
    } else {
        (row[2] as usize, row[3] as usize)
    };
    for (values, short_values) in sizes_about(lengths.0) {
        for (residuals, short_residuals) in sizes_about(lengths.1) {
            for (words, short_row) in rooms(SEGMENT_WORDS) {
                let outputs = (
                    vec![STALE; values],
                    vec![STALE; residuals],
                    vec![STALE_WORD; words],
                );
                let (fault, _) = both::written(context, source, &outputs);
                let short = [short_values, short_residuals, short_row];
                in_order(context, &[causes, short].concat(), fault, || {
                    format!("{source}, rooms {values} {residuals} {words}")
                });
            }
        }
    }
}
