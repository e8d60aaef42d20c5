//! Request A3 by hand: two lines with one number, told apart by IDtype.

use super::*;
use crate::layout;
use crate::programs::{put_writes, take_prints};
use crate::records::push_record;
use crate::reference::by_hand::{bytes, number, shown};
use crate::reference::export::part_bytes;
use crate::reference::limits::HANDHELD;
use crate::reference::message::request;
use crate::reference::screen::{Row, Shown};
use crate::reference::settings::LineFlags;
use Operation::{Add, Delete, Replace};

/// Example 11 of document 01: adds PABX 2345, no text.
const EXTENSION: &str = "02 02 00 0E 08 07 08 01 CA 00 09 42 01 23 45 FF 00 00";
/// The same of PSTN.
const TELEPHONE: &str = "02 02 00 0E 08 07 08 01 CA 00 09 40 01 23 45 FF 00 00";
const DELETE_EXTENSION: &str = "02 02 00 0E 08 07 08 01 CA 00 09 82 01 23 45 FF 00 00";
const DELETE_TELEPHONE: &str = "02 02 00 0E 08 07 08 01 CA 00 09 80 01 23 45 FF 00 00";
const PSTN: bool = false;
const PABX: bool = true;
const KEYS: [(bool, &[u8]); 2] = [(PABX, &[2, 3, 4, 5]), (PSTN, &[2, 3, 4, 5])];

/// The set after messages in hex, each of which must be taken.
fn after(messages: &[&str]) -> Set {
    let mut set = Set::fresh(HANDHELD);
    for message in messages {
        assert_eq!(number(&mut set, &bytes(message)), (0, 0), "{message}");
    }
    set
}

fn keys(set: &Set) -> Vec<(bool, &[u8])> {
    set.tables.lines.iter().map(Line::key).collect()
}

/// A setting of one IDtype, with a number and a text for each entry.
fn lines(operation: Operation, pabx: bool, entries: &[(&[u8], &str)]) -> Vec<u8> {
    let entry = |&(digits, text): &(&[u8], &str)| LineEntry {
        digits: digits.to_vec(),
        text: text.encode_utf16().collect(),
    };
    let flags = LineFlags { pabx, ..LineFlags::default() };
    Setting::Lines { operation, flags, entries: entries.iter().map(entry).collect() }.write()
}

/// The same of numbers 00, 01 and so on, without texts.
fn numbered(operation: Operation, pabx: bool, numbers: std::ops::Range<u8>) -> Vec<u8> {
    let numbers: Vec<[u8; 2]> = numbers.map(|number| [number / 10, number % 10]).collect();
    let entries: Vec<(&[u8], &str)> = numbers.iter().map(|digits| (&digits[..], "")).collect();
    lines(operation, pabx, &entries)
}

fn take_settings(set: &mut Set, settings: &[Vec<u8>]) -> (u8, u8) {
    number(set, &request(settings))
}

#[test]
fn example_11_stands() {
    let set = after(&[EXTENSION]);
    let flags = LineFlags { pabx: PABX, ..LineFlags::default() };
    assert_eq!(set.tables.lines, [Line { digits: vec![2, 3, 4, 5], flags, text: Text::new() }]);
}

/// The case that the request asks for: both lines present, and one deleted.
#[test]
fn both_lines_and_one_deleted() {
    let both = after(&[EXTENSION, TELEPHONE]);
    assert_eq!(keys(&both), KEYS);
    assert_eq!(both.counts(), (2, 0));
    let digits = Shown::Scratch("2345".encode_utf16().collect());
    assert_eq!((shown(&both, Row::Line(0)), shown(&both, Row::Line(1))), (digits.clone(), digits));
    assert_eq!(keys(&after(&[EXTENSION, TELEPHONE, DELETE_EXTENSION])), KEYS[1..]);
    assert_eq!(keys(&after(&[EXTENSION, TELEPHONE, DELETE_TELEPHONE])), KEYS[..1]);
    let none = after(&[EXTENSION, TELEPHONE, DELETE_TELEPHONE, DELETE_EXTENSION]);
    assert_eq!(none, Set::fresh(HANDHELD));
}

#[test]
fn the_order_of_adding_is_the_order_of_lines() {
    let both = after(&[TELEPHONE, EXTENSION]);
    assert_eq!(keys(&both), [KEYS[1], KEYS[0]]);
    assert_ne!(both, after(&[EXTENSION, TELEPHONE]));
}

/// Flags and text of one are overwritten in its place; the other stays as it is.
#[test]
fn each_is_overwritten_alone() {
    let both = after(&[EXTENSION, TELEPHONE]);
    for (place, message) in [
        (0, "02 02 00 10 08 07 08 01 CA 00 0B 7E 01 23 45 FF 00 41 00 00"),
        (1, "02 02 00 10 08 07 08 01 CA 00 0B 7C 01 23 45 FF 00 41 00 00"),
    ] {
        let mut set = both.clone();
        assert_eq!(number(&mut set, &bytes(message)), (0, 0));
        let mut expected = both.tables.lines.clone();
        let pabx = expected[place].flags.pabx;
        expected[place].flags = LineFlags { encryption: true, emergency: true, priority: 3, pabx };
        expected[place].text = vec![0x41];
        assert_eq!(set.tables.lines, expected);
        assert_eq!(shown(&set, Row::Line(place)), Shown::Stored(vec![0x41]));
    }
}

#[test]
fn a_delete_of_the_absent_idtype_does_nothing() {
    assert_eq!(after(&[EXTENSION, DELETE_TELEPHONE]), after(&[EXTENSION]));
    assert_eq!(after(&[TELEPHONE, DELETE_EXTENSION]), after(&[TELEPHONE]));
    assert_eq!(after(&[DELETE_EXTENSION]), Set::fresh(HANDHELD));
    // One delete of several numbers has one IDtype.
    let mut set = after(&[EXTENSION]);
    let (first, second): (&[u8], &[u8]) = (&[2, 3, 4, 5], &[1]);
    let settings =
        [lines(Add, PSTN, &[(second, "a")]), lines(Delete, PSTN, &[(first, ""), (second, "")])];
    assert_eq!(take_settings(&mut set, &settings), (0, 0));
    assert_eq!(keys(&set), KEYS[..1]);
}

#[test]
fn digits_as_they_are_written() {
    let (one, nought_one): (&[u8], &[u8]) = (&[1], &[0, 1]);
    let mut set = Set::fresh(HANDHELD);
    for pabx in [PSTN, PABX] {
        let setting = lines(Add, pabx, &[(one, ""), (nought_one, "")]);
        assert_eq!(take_settings(&mut set, &[setting]), (0, 0));
    }
    assert_eq!(keys(&set), [(PSTN, one), (PSTN, nought_one), (PABX, one), (PABX, nought_one)]);
    assert_eq!(take_settings(&mut set, &[lines(Delete, PABX, &[(one, "")])]), (0, 0));
    assert_eq!(keys(&set), [(PSTN, one), (PSTN, nought_one), (PABX, nought_one)]);
}

/// The 32 places are shared: a known number of the other IDtype needs a new one.
#[test]
fn the_33rd_of_another_idtype_has_no_room() {
    let mut set = Set::fresh(HANDHELD);
    let halves = [numbered(Add, PSTN, 0..16), numbered(Add, PABX, 0..16)];
    assert_eq!(take_settings(&mut set, &halves), (0, 0));
    assert_eq!(set.free(), (0, 64));
    let full = set.clone();
    for pabx in [PSTN, PABX] {
        assert_eq!(take_settings(&mut set, &[numbered(Add, pabx, 0..16)]), (0, 0));
        assert_eq!(take_settings(&mut set, &[numbered(Add, pabx, 15..17)]), (2, 1));
        assert_eq!(set, full);
    }
    assert_eq!(take_settings(&mut set, &[numbered(Replace, PSTN, 0..32)]), (0, 0));
    assert_eq!(take_settings(&mut set, &[numbered(Add, PABX, 5..6)]), (2, 1));
    assert_eq!(take_settings(&mut set, &[numbered(Add, PSTN, 5..6)]), (0, 0));
    // A delete of the absent IDtype frees no place; that of the other does, in the same message.
    let [wrong, right, add] = [(Delete, PABX), (Delete, PSTN), (Add, PABX)]
        .map(|(operation, pabx)| numbered(operation, pabx, 5..6));
    assert_eq!(take_settings(&mut set, &[wrong, add.clone()]), (2, 2));
    assert_eq!(take_settings(&mut set, &[right, add]), (0, 0));
    assert_eq!(set.counts(), (32, 0));
    assert_eq!(keys(&set)[31], (PABX, &[0, 5][..]));
}

/// Also with Count 0, as an export's first setting.
#[test]
fn a_replace_removes_lines_of_both_idtypes() {
    let (kept, other): (&[u8], &[u8]) = (&[2, 3, 4, 5], &[7]);
    for pabx in [PSTN, PABX] {
        let mut set = after(&[EXTENSION, TELEPHONE]);
        let settings = [lines(Replace, pabx, &[(other, ""), (kept, "a"), (other, "b")])];
        assert_eq!(take_settings(&mut set, &settings), (0, 0));
        assert_eq!(keys(&set), [(pabx, other), (pabx, kept)]);
        assert_eq!(shown(&set, Row::Line(0)), Shown::Stored(vec![0x62]));
        assert_eq!(take_settings(&mut set, &[lines(Replace, pabx, &[])]), (0, 0));
        assert_eq!(set, Set::fresh(HANDHELD));
    }
    let mut set = after(&[EXTENSION, TELEPHONE]);
    assert_eq!(take_settings(&mut set, &[bytes("CA 00 04 C0 00")]), (0, 0));
    assert_eq!(set, Set::fresh(HANDHELD));
}

#[test]
fn both_lines_are_exported() {
    let both = after(&[EXTENSION, TELEPHONE]);
    let exported = part_bytes(1, &both).expect("the part is one of the ten");
    let adds = "CA 00 09 42 01 23 45 FF 00 00 CA 00 09 40 01 23 45 FF 00 00";
    let written = format!("02 02 00 1D 08 07 08 03 CA 00 04 C0 00 {adds}");
    assert_eq!(exported, bytes(&written));
    // Whatever the other set held.
    for mut other in [Set::fresh(HANDHELD), after(&[TELEPHONE, EXTENSION]), both.clone()] {
        assert_eq!(number(&mut other, &exported), (0, 0));
        assert_eq!(other, both);
    }
}

#[test]
fn put_of_both_and_back() {
    let mut input = Vec::new();
    for message in [EXTENSION, TELEPHONE] {
        push_record(&mut input, 1, &bytes(message));
    }
    assert_eq!(take_prints(&input), "1 0 0\n1 0 0\n");
    let put = put_writes(&input);
    assert_eq!(
        take_prints(&put),
        "1 0 0\n2 0 0\n3 0 0\n4 0 0\n5 0 0\n6 0 0\n7 0 0\n8 0 0\n9 0 0\n10 0 0\n"
    );
    assert!(put_writes(&put) == put);
    push_record(&mut input, 1, &bytes(DELETE_TELEPHONE));
    let mut one = Vec::new();
    push_record(&mut one, 1, &bytes(EXTENSION));
    assert!(put_writes(&input) == put_writes(&one));
}

#[test]
fn both_lines_in_the_store() {
    let mut kept = layout::bytes(&after(&[EXTENSION, TELEPHONE]));
    assert!(layout::is_store(&kept, HANDHELD));
    assert_eq!(kept[1_548..1_556], bytes("00 02 00 01 03 04 05 06"));
    assert_eq!(kept[1_571..1_577], bytes("00 00 03 04 05 06"));
    assert_eq!(kept[2_222..2_225], bytes("02 01 00"));
    kept[1_551] = PSTN.into();
    assert!(!layout::is_store(&kept, HANDHELD), "two lines of one IDtype and number");
    kept[1_572] = PABX.into();
    kept[2_222..2_224].copy_from_slice(&[1, 2]);
    assert!(kept == layout::bytes(&after(&[TELEPHONE, EXTENSION])));
}
