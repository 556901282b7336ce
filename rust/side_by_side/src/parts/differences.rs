//! The list of differences from the published text, docs/DIFFERENCES.md. Each of its rows is run here by the
//! paper's program, by the compiled library and by both builds of the text, and each must answer as the row says.

mod before;
mod bounds;
mod choices;
mod fitting;
mod lines;
mod refused;
mod said;
mod segments;
mod streams;
mod table;

use crate::context::Context;
use oracle::paper::rules;

pub use before::before;
pub use refused::refused;
use said::Row;
use table::{Listed, plain};

/// The groups from this one on come from requests of document 02: their rows, and no others, are answered otherwise by
/// the paper's first rules.
const OF_REQUESTS: u32 = 11;

pub fn differences(context: &mut Context) {
    let (listed, today) = (table::listed(), rows());
    for (row, first) in today.iter().zip(rules::as_first(rows)) {
        run(context, row, &first, &listed);
    }
    each_is_run(context, &today, &listed);
}

fn rows() -> Vec<Row> {
    let rows = [
        bounds::rows(),
        fitting::rows(),
        choices::rows(),
        lines::rows(),
        streams::rows(),
        segments::rows(),
    ];
    rows.into_iter().flatten().collect()
}

/// A row of the list that is not run, or run twice, is an error.
fn each_is_run(context: &mut Context, rows: &[Row], listed: &[Listed]) {
    for listed in listed {
        let runs = rows.iter().filter(|row| plain(row.input) == listed.input);
        context.same("runs of a row", 1, runs.count(), || listed.input.clone());
    }
}

/// Runs a row. Where it has a star `filled` answers as the published text does, else as the paper does; where the paper's
/// rules part, `filled` answers by the first ones.
fn run(context: &mut Context, row: &Row, first: &Row, listed: &[Listed]) {
    let found = listed
        .iter()
        .find(|listed| listed.input == plain(row.input));
    context.same("in the list", true, found.is_some(), || {
        row.input.to_string()
    });
    let Some(listed) = found else {
        return;
    };
    let input = || format!("{}: {}", listed.group, listed.input);
    context.same("paper", &listed.here, &row.paper, input);
    context.same("library", &listed.here, &row.library, input);
    let by_the_first = context.first(&row.paper, || first.paper.clone());
    let has_parted = by_the_first != row.paper;
    context.same("a request", listed.group >= OF_REQUESTS, has_parted, input);
    for rust in context.rust {
        if rust.is_filled() && has_parted {
            let theirs = rules::as_first(|| first.there(rust));
            context.same(rust.name, &by_the_first, &theirs, input);
        }
        let theirs = row.there(rust);
        if rust.is_filled() && !listed.has_star {
            context.same(rust.name, &listed.here, &theirs, input);
        } else {
            let there = listed.answer(&theirs);
            let by_the_list = (&listed.here[..], there);
            context.listed(&row.paper[..], &theirs, by_the_list, &input());
        }
    }
}
