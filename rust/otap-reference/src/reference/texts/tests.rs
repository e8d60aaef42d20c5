//! Request A2 by hand: texts under 0100, beside the same under 0111.

use super::*;
use crate::layout;
use crate::reference::by_hand::{self, bytes, shown};
use crate::reference::commit::{judge, REPLY_ROOM};
use crate::reference::export::part_bytes;
use crate::reference::limits::HANDHELD;
use crate::reference::message::{query, request_as, Hash};
use crate::reference::plan::GroupAddress;
use crate::reference::screen::{Row, Shown};
use crate::reference::settings::{
    bounds, parse, Fault, GroupSlot, LineEntry, LineFlags, Operation, Setting, TextEntry,
};
use crate::reference::tables::Set;
use Operation::{Add, Delete, Replace};

/// Group slot 0: address 100001 hex, name A1.
const A1: &str = "02 02 00 0F 08 04 08 01 D1 00 0A 60 00 10 00 01 41 31 00";

/// A request under 0100 with one setting in hex.
fn eight(setting: &str) -> Vec<u8> {
    request_as(Coding::Eight, &[bytes(setting)])
}

/// Number, failed ID and the set after a message to a fresh one.
fn after(message: &[u8]) -> (u8, u8, Set) {
    let mut set = Set::fresh(HANDHELD);
    let (number, failed) = by_hand::number(&mut set, message);
    (number, failed, set)
}

fn number(message: &[u8]) -> (u8, u8) {
    let (number, failed, _) = after(message);
    (number, failed)
}

fn taken(message: &[u8]) -> Set {
    let (number, failed, set) = after(message);
    assert_eq!((number, failed), (0, 0), "{message:02X?}");
    set
}

fn group(text: &[u16]) -> Setting {
    let slot = GroupSlot {
        attribute: 2,
        broadcast: false,
        encryption: false,
        ovcm: false,
        emergency: false,
        priority: 0,
        address: GroupAddress(0x10_0001),
        text: text.to_vec(),
    };
    Setting::Group { index: 0, slot: Some(slot) }
}

fn quick(operation: Operation, units: usize) -> Setting {
    let entries = vec![TextEntry { key: 5, text: vec![0xFF; units] }];
    Setting::QuickTexts { operation, entries }
}

#[test]
fn a_group_under_0100() {
    let written = group(&[0x41, 0x31]).write_as(Coding::Eight).expect("both are below 256");
    assert_eq!(request_as(Coding::Eight, &[written]), bytes(A1));
    let set = taken(&bytes(A1));
    assert_eq!(shown(&set, Row::Group(0)), Shown::Stored(vec![0x0041, 0x0031]));
    let kept = layout::bytes(&set);
    assert_eq!(kept[278..284], bytes("80 10 00 01 02 00"));
    assert_eq!(kept[2_254..2_260], bytes("00 41 00 31 00 00"));
    let exported = part_bytes(6, &set).expect("the part is one of the ten");
    assert_eq!(exported[..8], bytes("02 02 00 A8 08 07 08 10"));
    assert_eq!(exported[8..22], bytes("D1 00 0D 60 00 10 00 01 00 41 00 31 00 00"));
}

#[test]
fn lengths_of_a_group() {
    let of = |length: u8, units: usize| {
        eight(&format!("D1 00 {length:02X} 60 00 10 00 01{} 00", " 41".repeat(units)))
    };
    let empty = taken(&of(8, 0));
    let digits = "32820900".encode_utf16().collect();
    assert_eq!(shown(&empty, Row::Group(0)), Shown::Scratch(digits));
    let longest = taken(&of(24, 16));
    assert_eq!(shown(&longest, Row::Group(0)), Shown::Stored(vec![0x41; 16]));
    assert_eq!(number(&of(25, 17)), (4, 1));
    assert_eq!(number(&of(9, 0)), (4, 1));
    // The end of 0111: its second byte is one too many.
    assert_eq!(number(&eight("D1 00 09 60 00 10 00 01 00 00")), (4, 1));
}

/// Every DataLength beside every text that is nearly short or long enough: only the true one is good, and it is in the row.
#[test]
fn rows_bound_what_the_fields_take() {
    for (coding, least, most) in [(Coding::Eight, 8, 24), (Coding::Unicode, 9, 41)] {
        assert_eq!([bounds(0xD1, coding), bounds(0xD2, coding)], [least..=most, least..=most]);
        for units in 0..=18 {
            let good = group(&vec![0x41; units]).write_as(coding).expect("a unit below 256");
            let truth = 7 + (units + 1) * coding.width() / 8;
            assert_eq!(bounds(0xD1, coding).contains(&truth), units <= SHORT_TEXT);
            for length in 0..=60 {
                let mut setting = good.clone();
                setting[2] = length;
                let in_range = usize::from(length) == truth && units <= SHORT_TEXT;
                assert_eq!(parse(&setting, coding, true).is_ok(), in_range, "{units}, {length}");
            }
        }
    }
    for kind in [0xC8, 0xC9, 0xCA, 0xCB, 0xCC, 0xCD, 0xCE, 0xCF, 0xD0, 0xFF] {
        assert_eq!(bounds(kind, Coding::Eight), bounds(kind, Coding::Unicode), "{kind:02X}");
    }
}

#[test]
fn quick_texts_under_both() {
    for coding in Coding::ALL {
        let number = |operation, units| {
            let written = quick(operation, units).write_as(coding).expect("FF is below 256");
            number(&request_as(coding, &[written]))
        };
        for operation in [Add, Delete, Replace] {
            assert_eq!(number(operation, 23), (0, 0));
            assert_eq!(number(operation, 24), (4, 1));
            assert_eq!(number(operation, 1), (0, 0));
        }
        assert_eq!(number(Add, 0), (4, 1));
        assert_eq!(number(Replace, 0), (4, 1));
        assert_eq!(number(Delete, 0), (0, 0));
    }
    assert_eq!(number(&eight("CC 00 05 41 05 00")), (4, 1));
    assert_eq!(number(&eight("CC 00 05 81 05 00")), (0, 0));
}

#[test]
fn status_texts_and_lines() {
    let status = taken(&eight("D0 00 0A 40 02 20 FF 00 7F 01 00"));
    assert_eq!(shown(&status, Row::Status(32)), Shown::Stored(vec![0x00FF]));
    assert_eq!(shown(&status, Row::Status(127)), Shown::Stored(vec![0x0001]));
    let empty = taken(&eight("D0 00 06 40 01 20 00"));
    assert_eq!(shown(&empty, Row::Status(32)), Shown::Stored(Vec::new()));
    let lines = taken(&eight("CA 00 0D 42 02 23 45 FF 41 31 00 12 3F 00"));
    assert_eq!(shown(&lines, Row::Line(0)), Shown::Stored(vec![0x0041, 0x0031]));
    assert_eq!(
        shown(&lines, Row::Line(1)),
        Shown::Scratch(b"123".iter().map(|&digit| digit.into()).collect())
    );
}

#[test]
fn a_text_has_its_end() {
    assert_eq!(number(&eight("D1 00 09 60 00 10 00 01 41 31")), (4, 1));
    assert_eq!(number(&eight("D1 00 07 60 00 10 00 01")), (4, 1));
    assert_eq!(number(&eight("D0 00 06 40 01 20 FF")), (4, 1));
    assert_eq!(number(&eight("CC 00 05 41 05 41")), (4, 1));
    assert_eq!(number(&eight("CA 00 08 42 01 23 45 FF 41")), (4, 1));
    // A 00 of the next setting would end the text, but outside its own DataLength.
    let two = [bytes("D0 00 06 40 01 20 FF"), bytes("CE 00 04 C0 00")];
    assert_eq!(number(&request_as(Coding::Eight, &two)), (4, 1));
}

#[test]
fn settings_without_texts_are_the_same() {
    let channels = Setting::Channels { operation: Replace, channels: vec![241, 640] };
    assert_eq!(channels.write_as(Coding::Eight), channels.write_as(Coding::Unicode));
    let set = taken(&eight("CE 00 07 C0 02 0F 12 80"));
    assert_eq!(set.tables.channels, [241, 640]);
    let none = Setting::Lines {
        operation: Replace,
        flags: LineFlags::default(),
        entries: Vec::<LineEntry>::new(),
    };
    assert_eq!(none.write_as(Coding::Eight), Some(bytes("CA 00 04 C0 00")));
    assert_eq!(none.write(), bytes("CA 00 04 C0 00"));
}

#[test]
fn only_two_coding_types_are_taken() {
    let (mut narrow, mut wide) =
        (bytes(A1), bytes("02 02 00 0C 08 07 08 01 CE 00 07 C0 02 0F 12 80"));
    for coding in 0..=255 {
        narrow[5] = coding;
        wide[5] = coding;
        let expected = match coding & 0x0F {
            0b0100 => [(0, 0), (0, 0)],
            0b0111 => [(4, 1), (0, 0)],
            _ => [(4, 0), (4, 0)],
        };
        assert_eq!([number(&narrow), number(&wide)], expected, "{coding:08b}");
    }
    for coding in [0b0101, 0b0000, 0b1100] {
        assert_eq!(Coding::from_number(coding), None);
    }
}

/// The coding type is judged behind the version, and before any setting.
#[test]
fn the_coding_type_in_its_order() {
    assert_eq!(number(&bytes("02 02 00 00 08 05 10 01 D4")), (1, 0));
    assert_eq!(number(&bytes("02 02 00 00 08 05 0C 01 D4")), (14, 0));
    assert_eq!(number(&bytes("02 02 00 00 08 05 08 01 D4")), (4, 0));
    assert_eq!(number(&bytes("02 02 00 00 08 04 08 01 D4")), (3, 1));
    assert_eq!(number(&bytes("02 02 00 00 08 04 08 00")), (4, 0));
    assert_eq!(number(&bytes("02 02 00 00 08 04 08")), (4, 0));
}

#[test]
fn queries_and_replies_have_their_own() {
    for coding in 0..=255 {
        let mut message = query(&Hash::Nothing);
        message[5] = coding;
        assert_eq!(number(&message), (5, 0), "{coding:08b}");
    }
    let mut reply = [0xEE; REPLY_ROOM];
    judge(&bytes(A1), &Set::fresh(HANDHELD), &mut reply);
    assert_eq!(reply[..10], bytes("02 02 00 06 08 00 09 00 00 00"));
}

#[test]
fn the_same_names_leave_the_same_store() {
    let wide = taken(&bytes("02 02 00 12 08 07 08 01 D1 00 0D 60 00 10 00 01 00 41 00 31 00 00"));
    let narrow = taken(&bytes(A1));
    assert_eq!(narrow, wide);
    assert!(layout::bytes(&narrow) == layout::bytes(&wide));
}

#[test]
fn what_has_no_writing() {
    assert_eq!(group(&[0x00FF]).write_as(Coding::Eight).map(|bytes| bytes.len()), Some(10));
    assert_eq!(group(&[0x0041, 0x0100]).write_as(Coding::Eight), None);
    assert_eq!(group(&[0x4E2D]).write_as(Coding::Eight), None);
    for coding in Coding::ALL {
        assert_eq!(group(&[0x41, 0]).write_as(coding), None);
        // Out of range, but with a writing.
        let long = group(&[0x41; 17]).write_as(coding).expect("every unit fits");
        assert_eq!(parse(&long, coding, true), Err(Fault::Field));
    }
}

/// Bytes with a text stand for a list under one coding type at most; here each is nearly right under the other.
#[test]
fn texts_of_the_other_coding_type() {
    for (setting, other) in [
        ("D1 00 0A 60 00 10 00 01 41 31 00", Coding::Unicode),
        ("D1 00 09 60 00 10 00 01 00 00", Coding::Eight),
        ("D0 00 0C 40 02 20 00 41 00 00 21 00 00", Coding::Eight),
        ("CC 00 06 81 00 00 00", Coding::Eight),
        ("CC 00 07 82 05 00 00 00", Coding::Unicode),
    ] {
        let setting = bytes(setting);
        let own = Coding::ALL.into_iter().find(|&coding| coding != other).expect("there are two");
        assert!(parse(&setting, own, true).is_ok(), "{setting:02X?}");
        assert_eq!(parse(&setting, other, true), Err(Fault::Field), "{setting:02X?}");
    }
}
