//! The check, by hand: what is an update and what is none, and its refusals.

use super::*;
use crate::reference::by_hand::{
    bytes, number, request_of, settings_of_size, taken_by, EVERY_TABLE,
};
use crate::reference::limits::{BOTH, HANDHELD, VEHICLE};
use crate::reference::message::{query, request, request_as, REQUEST_HEAD};
use crate::reference::texts::Coding;

/// Adds PABX 2345 with the text A, PSTN 7 without one, PSTN 8 without one.
const LINE: &str = "CA 00 0B 42 01 23 45 FF 00 41 00 00";
const ANOTHER: &str = "CA 00 07 40 01 7F 00 00";
const THIRD: &str = "CA 00 07 40 01 8F 00 00";
/// Three hashes.
const HASHES: [&str; 3] = [
    "FF 00 07 01 01 02 03 04",
    "FF 00 07 C1 01 02 03 05",
    "FF 00 0D 02 01 02 03 04 05 06 07 08 09 0A",
];
/// Home numbers NZI 15 with NP 806, and with NP 807, which is one too many.
const HOME: &str = "CD 00 05 07 E4 C0";
const NP_807: &str = "CD 00 05 07 E4 E0";

fn says(first: &Set, second: &Set, message: &[u8]) -> bool {
    check_update(Some(first), Some(second), message).expect("both are stores")
}

/// What the check says of a request with these settings.
fn updates(first: &Set, second: &Set, settings: &[&str]) -> bool {
    says(first, second, &request_of(settings))
}

#[test]
fn one_line_more() {
    for limits in BOTH {
        let first = taken_by(limits, &[LINE]);
        let second = taken_by(limits, &[LINE, ANOTHER]);
        assert!(updates(&first, &second, &[ANOTHER]));
        // By any other way too.
        assert!(updates(&first, &second, &[THIRD, ANOTHER, "CA 00 07 80 01 8F 00 00"]));
        assert!(updates(&first, &second, &["CA 00 04 C0 00", LINE, ANOTHER]));
        // And back again.
        assert!(updates(&second, &first, &["CA 00 07 80 01 7F 00 00"]));
        assert!(!updates(&second, &first, &[ANOTHER]));
    }
}

/// Whatever either keeps, and whatever the request would have the first keep.
#[test]
fn another_hash() {
    for limits in BOTH {
        for kept in HASHES {
            let first = taken_by(limits, &[LINE, kept]);
            for wanted in HASHES {
                let second = taken_by(limits, &[LINE, ANOTHER, wanted]);
                assert!(updates(&first, &second, &[ANOTHER]));
                assert!(HASHES.iter().all(|sent| updates(&first, &second, &[ANOTHER, sent])));
                assert!(!updates(&first, &second, &[wanted]));
            }
        }
    }
}

#[test]
fn not_quite_the_tables() {
    for limits in BOTH {
        let first = taken_by(limits, &[LINE]);
        let second = taken_by(limits, &[LINE, ANOTHER]);
        for settings in [
            // One entry more than wanted, and one fewer.
            &[ANOTHER, THIRD][..],
            &[LINE],
            // In the other order, with another flag, of the other IDtype, with a text.
            &["CA 00 04 C0 00", ANOTHER, LINE],
            &["CA 00 07 60 01 7F 00 00"],
            &["CA 00 07 42 01 7F 00 00"],
            &["CA 00 09 40 01 7F 00 41 00 00"],
            // The lines as wanted, and another table not.
            &[ANOTHER, HOME],
            &[ANOTHER, "CE 00 06 40 01 0F 1F"],
        ] {
            assert!(!updates(&first, &second, settings), "{settings:?}");
        }
    }
}

/// Each is refused, though what is good in it would do.
#[test]
fn what_is_refused() {
    for limits in BOTH {
        let first = taken_by(limits, &[LINE]);
        let second = taken_by(limits, &[LINE, ANOTHER]);
        let good = request_of(&[ANOTHER]);
        assert!(says(&first, &second, &good));
        assert!(!updates(&first, &second, &[ANOTHER, NP_807]));
        assert!(!updates(&first, &second, &[ANOTHER, "C7"]));
        assert!(!says(&first, &second, &[&good[..], &[0]].concat()), "13");
        for (place, byte) in [(0, 3), (3, 9), (4, 9), (5, 0), (6, 0x10), (7, 0), (7, 2), (6, 9)] {
            let mut message = good.clone();
            message[place] = byte;
            assert!(!says(&first, &second, &message), "byte {place}");
        }
        assert!((0..good.len()).all(|size| !says(&first, &second, &good[..size])));
        // Left over behind the only setting counted.
        let left_over = bytes("02 02 00 00 08 07 08 01 CA 00 07 40 01 7F 00 00 00");
        assert!(!says(&first, &second, &left_over));
    }
}

/// Equal tables do not make an update of what is refused.
#[test]
fn refused_between_equal_stores() {
    for limits in BOTH {
        let set = taken_by(limits, &EVERY_TABLE);
        assert!(!updates(&set, &set, &[NP_807]));
        assert!(!says(&set, &set, &[]));
        let channels = ["CE 00 06 40 01 0F 1F"; 255];
        let mut full = set.clone();
        full.tables.channels = vec![241; limits.channels];
        assert!(!updates(&full, &full, &channels), "it has no room");
    }
}

/// It is answered 0 where its hash is kept, and changes nothing: an update it is not.
#[test]
fn a_result_query() {
    for limits in BOTH {
        let set = taken_by(limits, &EVERY_TABLE);
        let asked = query(&set.hash);
        assert_eq!(number(&mut set.clone(), &asked), (0, 0));
        assert!(!says(&set, &set, &asked));
        let none = Set::fresh(limits);
        assert!(!says(&none, &none, &query(&none.hash)), "which is answered 5");
    }
}

#[test]
fn replaces_of_none() {
    let empty = [
        "C8 00 05 D0 00 00",
        "C9 00 04 C0 00",
        "CA 00 04 C0 00",
        "CC 00 03 C0",
        "CE 00 04 C0 00",
        "D0 00 04 C0 00",
    ];
    for limits in BOTH {
        let (none, held) = (Set::fresh(limits), taken_by(limits, &EVERY_TABLE));
        assert!(updates(&none, &none, &empty));
        for replace in empty {
            assert!(updates(&none, &none, &[replace]), "{replace}");
            assert!(!updates(&held, &held, &[replace]), "{replace}");
        }
        let rest = ["CB 00 03 80", "CD 00 05 00 00 00", "CF 00 05 00 00 00"];
        assert!(updates(&held, &none, &[&empty[..], &rest].concat()));
        assert!(!updates(&held, &none, &empty));
    }
}

/// An update need not change anything.
#[test]
fn requests_that_do_nothing() {
    for limits in BOTH {
        let set = taken_by(limits, &EVERY_TABLE);
        for setting in ["CC 00 08 41 05 00 42 00 00", "CA 00 04 40 00", "CB 00 06 68 10 00 01"] {
            assert!(updates(&set, &set, &[setting]), "{setting}");
        }
        assert!(!updates(&set, &set, &["CC 00 08 41 06 00 42 00 00"]));
    }
}

/// Eight-bit characters, no stated length and reserved bits come to the same tables.
#[test]
fn the_same_request_in_other_bytes() {
    for limits in BOTH {
        let (first, second) = (Set::fresh(limits), taken_by(limits, &[LINE]));
        let narrow = request_as(Coding::Eight, &[bytes("CA 00 09 42 01 23 45 FF 41 00")]);
        assert!(says(&first, &second, &narrow));
        let open = "02 02 00 00 08 57 08 01 CA 00 0B 43 01 23 45 FF 00 41 00 00";
        assert!(says(&first, &second, &bytes(open)));
    }
}

/// A message of 4,097 bytes is too long for a hand-held, and a vehicle's update.
#[test]
fn as_long_as_a_message() {
    let of_size = |size| request(&settings_of_size(size - REQUEST_HEAD));
    for (limits, size, wanted) in [
        (HANDHELD, 4_096, true),
        (HANDHELD, 4_097, false),
        (VEHICLE, 4_097, true),
        (VEHICLE, 8_192, true),
        (VEHICLE, 8_193, false),
    ] {
        let second = taken_by(limits, &["D0 00 07 40 01 21 00 00"]);
        let message = of_size(size);
        assert_eq!(message.len(), size);
        assert_eq!(says(&Set::fresh(limits), &second, &message), wanted, "{size}");
    }
}

/// The first store comes first, but 11 it is of either; the message is not asked then.
#[test]
fn no_stores() {
    let good = request_of(&[HOME]);
    for set in BOTH.map(Set::fresh) {
        for message in [&good[..], &[]] {
            assert_eq!(check_update(None, Some(&set), message), Err(11));
            assert_eq!(check_update(Some(&set), None, message), Err(11));
            assert_eq!(check_update(None, None, message), Err(11));
        }
    }
}
