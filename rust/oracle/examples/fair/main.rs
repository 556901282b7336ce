//! Where the choice by whole numbers and the one by costs in f32 part: every M from 1 to 65,535, with every length of
//! both models from 1 to 65,536. docs/DIFFERENCES.md shows what this prints in its group 12.
//!
//! Not every length of Swing has to be tried. Let PMC-Mean's length be p, and Swing's s. By the products Swing wins exactly
//! if s - p is more than p / M, so from s = p + p / M + 1 on, the quotient rounded down. By the costs it wins from some
//! length on: (M + 1) / s falls as s grows, and rounding keeps the order. So two things are enough for each M and p. If by
//! the costs Swing does not win at p + p / M, it wins at no smaller length, and so never where it does not by the products.
//! And from the next length on the rules part until it wins by the costs too, and never again behind that.

pub mod scan;

use oracle::paper::{MOST_METADATA, MOST_VALUES};
use scan::Lengths;

/// The longest of both models.
pub const LONGEST: u32 = MOST_VALUES as u32;

/// The sizes of which the page has a row, the least that parts among them and the one before it.
pub const SHOWN: [u32; 12] = [
    12,
    25,
    26,
    31,
    100,
    189,
    190,
    255,
    1_000,
    2_948,
    10_000,
    MOST_METADATA,
];

fn main() {
    let found = scan::all(LONGEST);
    let all = u64::from(MOST_METADATA) * u64::from(LONGEST).pow(2);
    let (all, parted) = (grouped(all), grouped(found.lengths));
    println!("M, and readings of PMC-Mean and of Swing: {all}");
    println!("  Swing wins by the products alone: {parted}");
    println!("  Swing wins by the costs alone: {}", found.by_costs_alone);
    let most = found.most;
    println!("  most readings of Swing that part beside one M and readings of PMC-Mean: {most}");
    for (name, lengths) in [("fewest readings", found.fewest), ("least M", found.least)] {
        if let Some(lengths) = lengths {
            println!("{name}: {}", said(lengths));
        }
    }
    println!();
    for m in SHOWN {
        println!("{}", row(m));
    }
}

/// Lengths that part: the products, and the cost at which they tie.
pub fn said(Lengths { m, pmc_mean, swing }: Lengths) -> String {
    let size = u64::from(m);
    let [less, more] = [(size + 1) * pmc_mean as u64, size * swing as u64].map(grouped);
    let cost = m as f32 / pmc_mean as f32;
    let [size, pmc_mean, swing] = [size, pmc_mean as u64, swing as u64].map(grouped);
    format!("M {size}, PMC-Mean {pmc_mean}, Swing {swing}: {less} < {more}, and both cost {cost}")
}

/// A row of the page: M, how many lengths of both models part, and those with the fewest readings.
pub fn row(m: u32) -> String {
    let found = scan::of(m, LONGEST);
    let first = found.fewest.map_or("–".to_string(), |lengths| {
        let lengths = [lengths.pmc_mean, lengths.swing].map(|length| grouped(length as u64));
        lengths.join(" and ")
    });
    let count = grouped(found.lengths);
    format!("| {} | {count} | {first} |", grouped(m.into()))
}

/// A number with a comma before each three digits.
fn grouped(number: u64) -> String {
    match number {
        0..1000 => number.to_string(),
        _ => format!("{},{:03}", grouped(number / 1000), number % 1000),
    }
}
