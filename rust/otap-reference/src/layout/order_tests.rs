//! The order of the lines among a store's bytes: where it stands, and that a false one makes bytes no store.

use super::*;
use crate::reference::limits::{HANDHELD, VEHICLE};
use crate::reference::settings::LineFlags;

const PSTN: bool = false;
const PABX: bool = true;

/// Lines in an order that is not theirs by key.
const FOUR: [(bool, &[u8]); 4] =
    [(PSTN, &[2, 3, 4, 5]), (PABX, &[2, 3, 4, 5]), (PSTN, &[2, 3]), (PSTN, &[3])];

/// A hand-held's store with these lines, each with a name.
fn kept(keys: &[(bool, &[u8])]) -> Vec<u8> {
    kept_by(HANDHELD, keys)
}

fn kept_by(limits: Limits, keys: &[(bool, &[u8])]) -> Vec<u8> {
    let line = |&(pabx, digits): &(bool, &[u8])| Line {
        digits: digits.to_vec(),
        flags: LineFlags { pabx, ..LineFlags::default() },
        text: vec![0x4E2D],
    };
    let mut set = Set::fresh(limits);
    set.tables.lines = keys.iter().map(line).collect();
    bytes(&set)
}

/// A store with so many lines, of both IDtypes, the last first.
fn many(limits: Limits, count: u8) -> Vec<u8> {
    let number = |place: u8| [place / 100, place / 10 % 10, place % 10];
    let numbers: Vec<[u8; 3]> = (0..count).rev().map(number).collect();
    let keys: Vec<(bool, &[u8])> =
        numbers.iter().map(|digits| (digits[2] % 2 == 1, &digits[..])).collect();
    kept_by(limits, &keys)
}

/// Whether these bytes with another order, zeros behind it, are a store.
fn with_order(bytes: &[u8], limits: Limits, order: &[u8]) -> bool {
    let mut poked = bytes.to_vec();
    let at = limits.regions().order;
    poked[at.clone()].fill(0);
    poked[at.start..][..order.len()].copy_from_slice(order);
    is_store(&poked, limits)
}

/// Whether these bytes with one byte changed are a store; the first of the order is 0.
fn with_byte(bytes: &[u8], limits: Limits, place: usize, byte: u8) -> bool {
    let mut poked = bytes.to_vec();
    poked[limits.regions().order.start + place] = byte;
    is_store(&poked, limits)
}

#[test]
fn the_order_of_four_lines() {
    let bytes = kept(&FOUR);
    assert!(is_store(&bytes, HANDHELD));
    assert_eq!(bytes[2_222..2_226], [3, 1, 4, 2]);
    assert!(is_empty(&bytes[2_226..2_254]));
    assert!(is_empty(&bytes[1_550 + 4 * 21..2_222]));
    let bytes = kept_by(VEHICLE, &FOUR);
    assert!(is_store(&bytes, VEHICLE));
    assert_eq!(bytes[19_902..19_906], [3, 1, 4, 2]);
    assert!(is_empty(&bytes[19_906..]));
    assert!(is_empty(&bytes[13_246 + 4 * 52..19_902]));
}

/// Of all arrangements of four names, and of four bytes with a name twice.
#[test]
fn four_lines_have_one_order() {
    let bytes = kept(&FOUR);
    let mut stores = Vec::new();
    for place in 0..6_usize.pow(4) {
        let order = [216, 36, 6, 1].map(|unit| (place / unit % 6) as u8);
        if with_order(&bytes, HANDHELD, &order) {
            stores.push(order);
        }
    }
    assert_eq!(stores, [[3, 1, 4, 2]]);
}

#[test]
fn false_orders_of_four_lines() {
    let bytes = kept(&FOUR);
    let orders: [(&str, &[u8]); 19] = [
        ("the first two exchanged, so a longer number first", &[1, 3, 4, 2]),
        ("the last two exchanged, so by digits alone", &[3, 1, 2, 4]),
        ("the outer two exchanged", &[2, 1, 4, 3]),
        ("as the lines stand", &[1, 2, 3, 4]),
        ("backwards", &[2, 4, 1, 3]),
        ("0 in the middle", &[3, 0, 4, 2]),
        ("0 in the middle, and all names", &[3, 1, 0, 4, 2]),
        ("0 at the start, and all names", &[0, 3, 1, 4, 2]),
        ("one too many, a name again", &[3, 1, 4, 2, 2]),
        ("one too many, of the next place", &[3, 1, 4, 2, 5]),
        ("one too few", &[3, 1, 4]),
        ("none, as before A7", &[]),
        ("one twice, for the one before", &[3, 3, 4, 2]),
        ("one twice, for the last", &[3, 1, 4, 4]),
        ("the next place, last", &[3, 1, 4, 5]),
        ("the next place, first", &[5, 1, 4, 2]),
        ("a position beyond all places", &[3, 1, 4, 33]),
        ("a position beyond the order", &[3, 1, 255, 2]),
        ("positions from 0", &[2, 0, 3, 1]),
    ];
    assert!(with_order(&bytes, HANDHELD, &[3, 1, 4, 2]));
    for (what, order) in orders {
        assert!(!with_order(&bytes, HANDHELD, order), "{what}");
    }
}

/// Names or other bytes, in use or behind, and in the order's last byte.
#[test]
fn every_byte_of_the_order() {
    let bytes = kept(&FOUR);
    for place in 0..32 {
        for byte in (0..=34).chain([64, 127, 128, 254, 255]) {
            let right = bytes[2_222 + place];
            assert_eq!(with_byte(&bytes, HANDHELD, place, byte), byte == right, "{place}: {byte}");
        }
    }
}

#[test]
fn no_lines_have_no_order() {
    let bytes = kept(&[]);
    assert!(is_store(&bytes, HANDHELD) && is_empty(&bytes[1_548..]));
    for place in 0..32 {
        for byte in [1, 2, 32, 33, 255] {
            assert!(!with_byte(&bytes, HANDHELD, place, byte), "{place}: {byte}");
        }
    }
}

#[test]
fn one_line_is_the_first() {
    let bytes = kept(&FOUR[1..2]);
    assert!(is_store(&bytes, HANDHELD));
    for byte in 0..=255 {
        assert_eq!(with_byte(&bytes, HANDHELD, 0, byte), byte == 1, "{byte}");
        assert_eq!(with_byte(&bytes, HANDHELD, 1, byte), byte == 0, "{byte} behind");
    }
}

/// No byte of a full order is 0, and each but the right one is false.
#[test]
fn a_full_order() {
    for (limits, count) in [(HANDHELD, 31), (HANDHELD, 32), (VEHICLE, 127), (VEHICLE, 128)] {
        let bytes = many(limits, count);
        assert!(is_store(&bytes, limits), "{count}");
        let order = bytes[limits.regions().order.start..][..usize::from(count)].to_vec();
        assert_eq!((1..=count).filter(|name| order.contains(name)).count(), order.len());
        for place in 0..order.len() {
            let next = order[(place + 1) % order.len()];
            for byte in [0, next, count + 1, limits.lines as u8 + 1, 255] {
                assert!(!with_byte(&bytes, limits, place, byte), "{count}, {place}: {byte}");
            }
            let mut swapped = order.clone();
            swapped.swap(place, (place + 1) % order.len());
            assert!(!with_order(&bytes, limits, &swapped), "{count}, {place}");
        }
    }
}

/// A key that changes moves its line in the order; flags do not, and nor does a text.
#[test]
fn the_order_follows_the_keys() {
    let bytes = kept(&FOUR);
    let slot = |position: usize| 1_550 + position * 21;
    let changed = |place: usize, byte: u8, order: &[u8]| {
        let mut poked = bytes.clone();
        poked[place] = byte;
        (is_store(&poked, HANDHELD), with_order(&poked, HANDHELD, order))
    };
    assert_eq!(changed(slot(3) + 1, 1, &[3, 1, 2, 4]), (false, true), "PABX 3");
    assert_eq!(changed(slot(1) + 1, 0, &[3, 1, 4, 2]), (false, false), "PSTN 2345 twice");
    assert_eq!(changed(slot(2) + 3, 5, &[1, 3, 4, 2]), (false, true), "24");
    assert_eq!(changed(slot(2) + 4, 1, &[3, 1, 4, 2]), (true, true), "230");
    assert_eq!(changed(slot(2) + 4, 6, &[1, 3, 4, 2]), (false, true), "235");
    assert_eq!(changed(slot(3) + 3, 1, &[3, 1, 4, 2]), (true, true), "30");
    assert_eq!(changed(slot(3) + 2, 1, &[4, 3, 1, 2]), (false, true), "0");
    for position in 0..4 {
        assert_eq!(changed(slot(position), 15, &[3, 1, 4, 2]), (true, true), "flags");
        assert_eq!(changed(2_254 + 2 * position, 0, &[3, 1, 4, 2]), (true, true), "text");
    }
}
