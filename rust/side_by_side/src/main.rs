//! Runs the proved library, document 01's plain program and the Rust on the same inputs: the program by today's
//! rules beside the library, and by the first ones beside the Rust, which does not have the requests of document 02.
//! Usage: `side_by_side [SEED] [SCALE] [NAME]`, where SCALE is a factor, or `all` for the run over every
//! f32; with a NAME only the parts run whose names begin with it.

mod context;
mod lent;
mod order;
mod parts;
mod shape;

use context::{Outcome, Part};
use side_by_side::{face, inputs};
use std::process::ExitCode;
use std::sync::atomic::{AtomicUsize, Ordering};
use std::sync::mpsc;
use std::thread;

fn main() -> ExitCode {
    let mut words = std::env::args().skip(1);
    let seed = words.next().map_or(Some(1), |word| word.parse().ok());
    let scale = words.next().unwrap_or_else(|| "1".to_string());
    let all = scale == "all";
    let factor = if all { Some(1) } else { scale.parse().ok() };
    let (Some(seed), Some(factor)) = (seed, factor) else {
        eprintln!(
            "usage: side_by_side [SEED] [SCALE] [NAME]: two whole numbers, and a part's name"
        );
        eprintln!("SCALE may be `all`");
        return ExitCode::from(2);
    };
    let name = words.next().unwrap_or_default();
    if oracle::builds::AT_HAND.is_empty() {
        println!("skipped: the published Rust, since ORACLE_SRC names no folder with its text");
    }
    let named = parts::ALL.iter().filter(|part| part.is_named(&name));
    let mut parts: Vec<&Part> = named.collect();
    if parts.is_empty() {
        eprintln!("no part's name begins with {name:?}; the parts are:");
        for part in parts::ALL {
            eprintln!("    {}", part.name());
        }
        return ExitCode::from(2);
    }
    parts.extend(all.then_some(&parts::EVERY_F32));
    let (sender, outcomes) = mpsc::channel();
    let (parts, next) = (&parts, &AtomicUsize::new(0));
    thread::scope(|scope| {
        for _ in 0..thread::available_parallelism().map_or(1, usize::from) {
            let sender = sender.clone();
            scope.spawn(move || work(parts, next, seed, factor, &sender));
        }
        drop(sender);
        context::finish(outcomes.iter())
    })
}

/// Runs parts, each one that no other thread has taken.
fn work(
    parts: &[&Part],
    next: &AtomicUsize,
    seed: u64,
    factor: u64,
    outcomes: &mpsc::Sender<Outcome>,
) {
    while let Some(part) = parts.get(next.fetch_add(1, Ordering::Relaxed)) {
        let sent = outcomes.send(context::run(part, seed, factor));
        sent.expect("the main thread waits for all outcomes");
    }
}
