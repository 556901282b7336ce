//! The committed list is what the oracle answers today, and it holds every refusal of every call, those of a
//! stream at later values too.

use std::collections::BTreeSet;

#[test]
fn the_list_is_as_committed() {
    let list = include_str!("../../../crates/replay/stdin");
    assert!(
        replay::list() == list,
        "cargo run --release -p replay makes another list"
    );
}

#[test]
fn what_the_program_must_write_is_as_committed() {
    assert_eq!(
        replay::told(),
        include_str!("../../../crates/replay/stdout")
    );
}

#[test]
fn every_refusal_of_every_call_is_in_the_list() {
    for (call, (name, refusals)) in replay::CALLS.iter().enumerate() {
        let expected: BTreeSet<u64> = refusals.iter().copied().collect();
        // The first two answer no number but a value.
        if call > 1 {
            let numbers = replay::refusals(call)
                .into_iter()
                .map(|[number, ..]| number);
            assert_eq!(BTreeSet::from_iter(numbers), expected, "{name}");
        }
    }
}

#[test]
fn every_refusal_of_a_stream_is_in_the_list_at_several_places() {
    for (call, (name, refusals)) in replay::CALLS.iter().enumerate().skip(2) {
        let told = replay::refusals(call);
        for &number in *refusals {
            let placed = |told: &&replay::Told| told[0] == number && told[1] > 0 && told[2] > 0;
            let placed = told.iter().filter(placed).count();
            if (5..=8).contains(&number) {
                assert!(placed > 1, "{name}: {number} behind a value: {placed}");
            } else {
                assert_eq!(placed, 0, "{name}: {number} has no place");
            }
        }
    }
}
