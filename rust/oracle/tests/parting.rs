//! docs/DIFFERENCES.md shows the smallest pairs that the program `parting` finds.

#[allow(dead_code)]
#[path = "../examples/parting/main.rs"]
mod parting;

const PAGE: &str = include_str!("../../../docs/DIFFERENCES.md");

#[test]
fn the_smallest_pairs_are_in_the_page() {
    let found: Vec<String> = parting::pairs::found().flatten().collect();
    assert_eq!(found.len(), 7);
    for pair in found {
        let cell = format!("| {} |", pair.replace('-', "−"));
        assert!(PAGE.contains(&cell), "the page lacks {cell}");
    }
}
