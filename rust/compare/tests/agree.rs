//! The proved heap and `second` agree, each broken copy of `second` is caught, and the stored script is up to date.

use compare::broken::COPIES;
use compare::case;
use compare::duel::Duel;
use compare::script;
use compare::side::{proved, Answers};
use std::path::Path;

/// The first case, of so many, in which the two differ.
fn caught(first: Answers, other: Answers, cases: u64) -> Option<u64> {
    (0..cases).find(|&number| {
        let mut duel = Duel::new(first, other);
        case::play(number, 7, &mut duel);
        duel.differences > 0
    })
}

#[test]
fn the_two_agree() {
    assert_eq!(caught(proved, second::apply, 3_000), None);
}

#[test]
fn every_broken_copy_is_caught() {
    assert!(COPIES.len() >= 84, "there are {} copies", COPIES.len());
    for &(name, answers) in COPIES {
        let case = caught(proved, answers, 3_000);
        println!("{name}: {case:?}");
        assert!(case.is_some(), "{name} is not caught");
    }
}

#[test]
fn the_stored_script_is_unchanged() {
    let script = script::stored();
    assert!(script.calls >= 20_000 && script.heaps >= 200, "{} calls over {} heaps", script.calls, script.heaps);
    assert!(script.damaged * 2 >= script.heaps, "{} of {} heaps are damaged", script.damaged, script.heaps);
    let vectors = Path::new(env!("CARGO_MANIFEST_DIR")).join("../../crates/vectors");
    let stored = |name: &str| std::fs::read_to_string(vectors.join(name)).expect(name);
    // not assert_eq: the texts are too long to print
    assert!(stored("stdin") == script.text, "the stored script is out of date: cargo run --bin script writes it");
    assert!(
        stored("stdout") == script.transcript,
        "the stored transcript is out of date: cargo run --bin script writes it"
    );
}
