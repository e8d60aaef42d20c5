//! The stored files of calls, by which the page's modules are tried, are what the reference says; the archive is held to each line while it is written anew.

use otap::{Handheld, Vehicle};
use otap_tests::vectors::vectors;
use std::collections::BTreeSet;
use std::fs::read_to_string;

fn stored(kind: &str) -> String {
    let folder = format!("{}/../../web/tests/vectors/{kind}", env!("CARGO_MANIFEST_DIR"));
    read_to_string(format!("{folder}/calls")).expect("the kind has stored calls")
}

/// By lines, so that a difference is readable.
fn compare(stored: &str, written: &str) {
    for (place, (one, other)) in stored.lines().zip(written.lines()).enumerate() {
        assert_eq!(one, other, "line {}", place + 1);
    }
    assert_eq!(stored.len(), written.len());
}

#[test]
fn a_handhelds_calls_are_as_stored() {
    compare(&stored("handheld"), &vectors::<Handheld>());
}

#[test]
fn a_vehicles_calls_are_as_stored() {
    compare(&stored("vehicle"), &vectors::<Vehicle>());
}

/// The values that this word of such lines has.
fn met(lines: &str, name: &str, word: usize) -> BTreeSet<u32> {
    let own = lines.lines().filter(|line| line.split(' ').next() == Some(name));
    own.map(|line| line.split(' ').nth(word).and_then(|word| word.parse().ok()).unwrap()).collect()
}

/// Every number that a message, a report and its reader can come to with right buffers, and every type of parameter.
#[test]
fn every_number_is_met() {
    for kind in ["handheld", "vehicle"] {
        let lines = stored(kind);
        assert_eq!(
            met(&lines, "take", 2),
            BTreeSet::from([0, 1, 2, 3, 4, 5, 12, 13, 14]),
            "{kind}"
        );
        assert_eq!(met(&lines, "report", 3), BTreeSet::from([0, 1, 4, 12, 13, 14, 16]), "{kind}");
        assert_eq!(met(&lines, "read", 2), BTreeSet::from([0, 1, 4, 12, 13, 14]), "{kind}");
        assert_eq!(met(&lines, "propose", 1), BTreeSet::from([0, 19]), "{kind}");
        assert_eq!(met(&lines, "check", 3), BTreeSet::from([0, 1]), "{kind}");
        assert_eq!(met(&lines, "lookup", 3), BTreeSet::from([0, 20]), "{kind}");
        assert_eq!(met(&lines, "export", 2), BTreeSet::from([0, 16]), "{kind}");
        assert!(
            met(&lines, "item", 4).is_superset(&(0xC8..=0xD0).chain([0xFF]).collect()),
            "{kind}"
        );
    }
}
