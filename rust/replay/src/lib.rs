//! Makes the fixed list of answers that the proved program `replay` replays: calls of the C face with inputs
//! from a seeded generator, and what the oracle, our plain program of document 01, answers, number, value and
//! place, and leaves in the lent memory. The compiled library has no part in it.

mod broken;
mod calls;
mod draw;
mod parting;
mod record;
mod rescue;
mod table;

pub use calls::{CALLS, Told};

use calls::answered;
use record::Record;
use side_by_side::inputs::Inputs;
use std::collections::BTreeSet;
use std::fmt::Write;

/// The seed of the list.
const SEED: u64 = 1;

/// How many records of a call are drawn for each of its refusals, besides those at its limits, those of broken
/// streams, those that the first rules answer otherwise and those of cut streams.
const DRAWN: usize = 25;

/// The records of a call.
fn records(call: usize) -> Vec<Record> {
    let mut inputs = Inputs::named(SEED, CALLS[call].0);
    let mut records = draw::at_limits(call);
    records.extend(broken::records(call));
    records.extend(parting::records(call));
    records.extend(rescue::cuts(call));
    let count = DRAWN * (2 + CALLS[call].1.len());
    records.extend((0..count).map(|_| draw::drawn(call, &mut inputs)));
    records
}

/// The list: for each call a title and its records.
pub fn list() -> String {
    let mut text = String::from(
        "# Answers of the oracle: a call's number and what it is handed, a colon, what it answers and leaves.\n\
         # Made by `cargo run --release -p replay` in rust/.\n",
    );
    for (call, (name, _)) in CALLS.iter().enumerate() {
        _ = writeln!(text, "@{name}");
        for record in records(call) {
            text += &record.line(&answered(&record));
        }
    }
    text
}

/// What the program writes where no answer differs.
pub fn told() -> String {
    let (mut text, mut total) = (String::new(), 0);
    for (call, (name, _)) in CALLS.iter().enumerate() {
        let count = records(call).len();
        _ = writeln!(text, "{name} {count} answers, 0 differ");
        total += count;
    }
    _ = writeln!(text, "total {total} answers, 0 differ");
    text
}

/// The refusals of a call that the list holds: number, value and place.
pub fn refusals(call: usize) -> BTreeSet<Told> {
    let told = records(call).into_iter().map(|record| answered(&record).0);
    told.filter(|told| told[0] != 0).collect()
}
