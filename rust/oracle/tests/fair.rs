//! docs/DIFFERENCES.md shows what the program `fair` finds, and the edges that it tries are enough.

#[allow(dead_code)]
#[path = "../examples/fair/main.rs"]
mod fair;

use fair::LONGEST;
use fair::scan::{self, Lengths};
use oracle::paper::types::{wins_by_costs, wins_by_products};
use oracle::paper::{MOST_METADATA, MOST_VALUES};

const PAGE: &str = include_str!("../../../docs/DIFFERENCES.md");

/// The least M of which any lengths part.
const LEAST: u32 = 190;

fn in_the_page(text: &str) {
    assert!(PAGE.contains(text), "the page lacks {text}");
}

#[test]
fn the_fewest_readings_are_in_the_page() {
    let found = scan::all(2_948);
    let fewest = Lengths {
        m: 2_948,
        pmc_mean: 2_947,
        swing: 2_948,
    };
    assert_eq!(found.fewest, Some(fewest));
    assert_eq!((found.lengths, found.by_costs_alone), (1, 0));
    in_the_page(&fair::said(fewest));
}

#[test]
fn the_least_size_is_in_the_page() {
    for m in 1..LEAST {
        assert_eq!(scan::of(m, LONGEST).lengths, 0, "M {m}");
    }
    let least = scan::of(LEAST, LONGEST).least;
    in_the_page(&fair::said(least.expect("lengths that part")));
}

#[test]
fn the_rows_are_in_the_page() {
    assert!(fair::SHOWN.contains(&LEAST) && fair::SHOWN.contains(&(LEAST - 1)));
    for m in fair::SHOWN {
        in_the_page(&fair::row(m));
    }
}

/// Every length of Swing beside some M and lengths of PMC-Mean: what is said of the two edges.
#[test]
fn the_edges_are_enough() {
    for m in [1, 2, 12, LEAST, 255, 2_948, 40_000, MOST_METADATA] {
        for pmc_mean in [1, 2, 255, 2_947, 47_879, 65_057, 65_534, MOST_VALUES] {
            let lost = scan::last_lost(m, pmc_mean);
            let by_costs: Vec<bool> = (1..=MOST_VALUES)
                .map(|swing| wins_by_costs(m, pmc_mean, swing))
                .collect();
            let input = format!("M {m}, PMC-Mean {pmc_mean}");
            assert!(by_costs.is_sorted(), "{input}");
            for (swing, &by_costs) in (1..).zip(&by_costs) {
                let by_products = wins_by_products(m, pmc_mean, swing);
                assert_eq!(by_products, swing > lost, "{input}, Swing {swing}");
                assert!(by_products || !by_costs, "{input}, Swing {swing}");
            }
        }
    }
}

/// Every two lengths up to some thousands, without the edges.
#[test]
fn as_many_part_as_are_found() {
    let longest = 3_500;
    for m in [2_900, 2_948, 3_021, 3_499, 3_600] {
        let (mut parted, mut fewest) = (0, None);
        for swing in 1..=longest as usize {
            for pmc_mean in 1..=longest as usize {
                if wins_by_products(m, pmc_mean, swing) != wins_by_costs(m, pmc_mean, swing) {
                    parted += 1;
                    fewest = fewest.or(Some(Lengths { m, pmc_mean, swing }));
                }
            }
        }
        let found = scan::of(m, longest);
        assert_eq!((found.lengths, found.fewest), (parted, fewest), "M {m}");
    }
}
