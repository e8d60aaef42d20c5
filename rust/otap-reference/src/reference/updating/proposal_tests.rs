//! The proposer, by hand: what it writes for each part, and its refusals.

use super::*;
use crate::reference::by_hand::{number_of, request_of, taken_by, EVERY_TABLE};
use crate::reference::limits::{Limits, BOTH};

/// By part: a setting that changes its tables and no other's, whatever they have of `EVERY_TABLE`.
const CHANGES: [&str; 10] = [
    "CA 00 0A 40 01 12 3F 00 41 00 00",
    "CF 00 05 00 28 A0",
    "CC 00 08 41 06 00 41 00 00",
    "CE 00 06 40 01 28 0F",
    "D0 00 09 40 01 7F 00 42 00 00",
    "D1 00 0B 60 0F 10 00 01 00 41 00 00",
    "D2 00 0B 40 0F 10 00 01 00 41 00 00",
    "C8 00 0C 54 80 01 10 00 02 00 41 00 00",
    "C9 00 09 5C 01 10 03 EA 00 00",
    "D3 00 09 40 0F 7F 00 41 00 00",
];

/// Deletes of the first fifteen indexes, written for each in place of XX.
fn deletes(setting: &str) -> Vec<String> {
    (0..15).map(|index| setting.replace("XX", &format!("{index:02X}"))).collect()
}

/// What comes before the setting in the part of a fresh set that was changed so; or stands in its place.
fn fresh_part(part: usize) -> Vec<String> {
    let change = CHANGES[part - 1].to_string();
    let before = match part {
        1 => vec!["CA 00 04 C0 00".into()],
        2 => vec!["CB 00 03 80".into(), "CD 00 05 00 00 00".into()],
        3 => return vec!["CC 00 08 C1 06 00 41 00 00".into()],
        4 => return vec!["CE 00 06 C0 01 28 0F".into()],
        5 => return vec!["D0 00 09 C0 01 7F 00 42 00 00".into()],
        6 => deletes("D1 00 09 80 XX 00 00 00 00 00"),
        7 => deletes("D2 00 09 80 XX 00 00 00 00 00"),
        8 => vec!["C8 00 05 D0 00 00".into()],
        9 => vec!["C9 00 04 C0 00".into()],
        _ => deletes("D3 00 07 80 XX 0F 00 00"),
    };
    [before, vec![change]].concat()
}

/// What a call writes over other bytes, which must stay behind that, or wherever it is refused.
fn proposed(first: &Set, second: &Set) -> Result<Vec<u8>, u8> {
    let mut buffer = vec![0xEE; first.limits.message + 10];
    let answer = propose(Some(first), Some(second), &mut buffer);
    let (written, rest) = buffer.split_at(answer.unwrap_or(0));
    assert!(rest.iter().all(|&byte| byte == 0xEE));
    answer.map(|_| written.to_vec())
}

/// That the proposal is this part of the second, and an update.
fn proposes(part: u8, first: &Set, second: &Set) {
    let message = proposed(first, second).expect("one part differs");
    assert_eq!(Some(&message), part_bytes(part, second).as_ref(), "part {part}");
    assert_eq!(check_update(Some(first), Some(second), &message), Ok(true), "part {part}");
}

/// A set with an entry in most tables and a hash, and the same after more settings, which has no hash.
fn changed(limits: Limits, settings: &[&str]) -> (Set, Set) {
    let first = taken_by(limits, &EVERY_TABLE);
    let mut second = first.clone();
    assert_eq!(number_of(&mut second, settings), (0, 0));
    (first, second)
}

#[test]
fn each_part_of_a_fresh_set() {
    for limits in BOTH {
        for (part, change) in (1..).zip(CHANGES) {
            let (first, second) = (Set::fresh(limits), taken_by(limits, &[change]));
            let wanted = fresh_part(part);
            let settings: Vec<&str> = wanted.iter().map(String::as_str).collect();
            assert_eq!(proposed(&first, &second), Ok(request_of(&settings)), "part {part}");
            proposes(part as u8, &first, &second);
        }
    }
}

/// There and back, beside other tables that are not empty and of which nothing is written.
#[test]
fn each_part_between_neighbours() {
    for limits in BOTH {
        for (part, change) in (1..).zip(CHANGES) {
            let (first, second) = changed(limits, &[change]);
            proposes(part, &first, &second);
            proposes(part, &second, &first);
        }
    }
}

/// One, two or all of three: they are one part.
#[test]
fn key_home_and_system() {
    let changes = ["CB 00 03 80", "CD 00 05 07 E4 C0", "CF 00 05 00 28 A0"];
    for limits in BOTH {
        for settings in (0..3).flat_map(|from| (from + 1..=3).map(move |to| from..to)) {
            let (first, second) = changed(limits, &changes[settings]);
            proposes(2, &first, &second);
        }
    }
}

/// Whatever they keep: the hash is no part of an export.
#[test]
fn equal_tables() {
    for limits in BOTH {
        assert_eq!(proposed(&Set::fresh(limits), &Set::fresh(limits)), Err(19));
        // A replace of the channels by what they are, so that the hash alone differs.
        let (first, second) = changed(limits, &["CE 00 06 C0 01 0F 1F"]);
        assert!(first.hash != second.hash && first.tables == second.tables);
        for (one, other) in [(&first, &first), (&first, &second), (&second, &first)] {
            assert_eq!(proposed(one, other), Err(19));
        }
    }
}

#[test]
fn several_parts() {
    for limits in BOTH {
        for (one, other) in (0..10).flat_map(|one| (one + 1..10).map(move |other| (one, other))) {
            let (first, second) = changed(limits, &[CHANGES[one], CHANGES[other]]);
            assert_eq!(proposed(&first, &second), Err(19), "{one} {other}");
            assert_eq!(proposed(&second, &first), Err(19), "{one} {other}");
        }
        let (first, second) = changed(limits, &CHANGES);
        assert_eq!(proposed(&first, &second), Err(19));
    }
}

/// 15 comes before 19, and larger buffers do no harm.
#[test]
fn the_buffer() {
    for limits in BOTH {
        for changes in [&CHANGES[3..4], &CHANGES[3..5], &["CA 00 04 40 00"]] {
            let (first, second) = changed(limits, changes);
            for room in [0, 1, 20, limits.message - 1] {
                let mut buffer = vec![0xEE; room];
                assert_eq!(propose(Some(&first), Some(&second), &mut buffer), Err(15));
                assert!(buffer.iter().all(|&byte| byte == 0xEE));
            }
        }
        let (first, second) = changed(limits, &CHANGES[3..4]);
        for room in [limits.message, limits.message + 1, 2 * limits.message] {
            let mut buffer = vec![0xEE; room];
            // The channels 241 and 640.
            assert_eq!(propose(Some(&first), Some(&second), &mut buffer), Ok(16));
            assert_eq!(buffer[..16], request_of(&["CE 00 07 C0 02 0F 12 80"]));
        }
    }
}

/// 11 comes before 15, and before 19.
#[test]
fn no_stores() {
    for limits in BOTH {
        let (first, second) = changed(limits, &CHANGES[3..4]);
        for room in [0, limits.message - 1, limits.message] {
            let mut buffer = vec![0xEE; room];
            for set in [&first, &second] {
                assert_eq!(propose(None, Some(set), &mut buffer), Err(11));
                assert_eq!(propose(Some(set), None, &mut buffer), Err(11));
            }
            assert_eq!(propose(None, None, &mut buffer), Err(11));
            assert!(buffer.iter().all(|&byte| byte == 0xEE));
        }
    }
}
