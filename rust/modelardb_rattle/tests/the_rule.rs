//! docs/THE-RULE.md shows what the program `rule` prints, table and worked example, and README the example.

use modelardb_rattle::{ErrorBound, PMCMean, is_value_within_error_bound};

#[path = "../examples/shared/readings.rs"]
mod readings;
#[path = "../examples/rule/steps.rs"]
mod steps;
#[path = "../examples/rule/table.rs"]
mod table;

const PAGE: &str = include_str!("../../../docs/THE-RULE.md");

const README: &str = include_str!("../../../README.md");

/// The lines of the page between a mark and the next one.
fn block(mark: &str) -> String {
    let begin = format!("<!-- {mark} -->\n");
    let (_, rest) = PAGE
        .split_once(&begin)
        .expect("the mark stands in the page");
    let (block, _) = rest
        .split_once("<!-- end -->")
        .expect("an end to the block");
    block.to_string()
}

#[test]
fn the_table_is_what_the_library_says() {
    let table = table::table().expect("runs that are allowed");
    assert_eq!(
        block("table"),
        table,
        "remake it in rust/ with `cargo run --release -p modelardb_rattle --example rule`, and put what it prints between the marks"
    );
}

/// What the program prints of the readings that are shipped.
fn worked_example() -> String {
    let file = concat!(
        env!("CARGO_MANIFEST_DIR"),
        "/../../examples/three-readings.txt"
    );
    let readings = readings::of_file(file).expect("the readings that are shipped");
    let half = readings::bound("0.5").expect("a bound");
    steps::steps(&readings, half, 12).expect("readings that are allowed")
}

#[test]
fn the_worked_example_is_what_the_library_says() {
    assert_eq!(
        block("three readings"),
        format!("```\n{}```\n", worked_example()),
        "remake it in rust/ with `cargo run --release -p modelardb_rattle --example rule -- ../examples/three-readings.txt 0.5 12`, and put what it prints between the marks"
    );
}

#[test]
fn the_readme_shows_the_worked_example() {
    let said = worked_example();
    assert!(README.contains(&said), "README lacks:\n{said}");
}

/// What the page says of readings of one decimal: of the neighbours how many are not within the bound of each other, and
/// of the pairs two tenths apart how many PMC-Mean does not take together.
#[test]
fn readings_of_one_decimal_mostly_miss_a_bound_of_a_tenth() {
    let readings: Vec<f32> = (200..=250u8)
        .map(|tenths| f32::from(tenths) / 10.0)
        .collect();
    let missed = |bound: f32| {
        let bound = ErrorBound::Absolute(bound);
        let is_apart =
            |pair: &&[f32]| is_value_within_error_bound(bound, pair[0], pair[1]) == Ok(false);
        let is_refused = |three: &&[f32]| {
            let mut model = PMCMean::new(bound).expect("an allowed bound");
            [three[0], three[2]].map(|value| model.fit_value(value)) != [Ok(true); 2]
        };
        let neighbours = readings.windows(2);
        let pairs = readings.windows(3);
        (
            neighbours.filter(is_apart).count(),
            pairs.filter(is_refused).count(),
        )
    };
    assert_eq!(
        (readings.windows(2).len(), readings.windows(3).len()),
        (50, 49)
    );
    assert_eq!(missed(0.1), (40, 49));
    assert_eq!(missed(0.1001), (0, 0));
}
