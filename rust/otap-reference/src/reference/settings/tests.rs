//! Request A4 by hand: which C8, C9 and D3 are in range.

use super::*;
use crate::reference::by_hand::{bytes, number, number_of};
use crate::reference::limits::HANDHELD;
use crate::reference::message::request_as;
use crate::reference::tables::Set;

/// Adds response group 100001, "A".
const RESPONSE: &str = "C8 00 0C 60 00 01 10 00 01 00 41 00 00";
/// The same without a name.
const INDIVIDUAL: &str = "C9 00 09 40 01 10 00 01 00 00";
/// PABX 2345 in slot 3.
const SLOT: &str = "D3 00 09 42 03 23 45 FF 00 00";

/// The number of a request to a fresh set with one setting, whose failed ID is 1 where it is not taken.
fn alone(setting: &str) -> u8 {
    let (number, failed) = number_of(&mut Set::fresh(HANDHELD), &[setting]);
    assert_eq!(failed, u8::from(number != 0), "{setting}");
    number
}

/// The same under 0100.
fn alone_eight(setting: &str) -> u8 {
    number(&mut Set::fresh(HANDHELD), &request_as(Coding::Eight, &[bytes(setting)])).0
}

fn read(setting: &str) -> Setting {
    let setting = bytes(setting);
    let (read, length) = parse(&setting, Coding::Unicode, true).expect("the setting is in range");
    assert_eq!(length, setting.len());
    read
}

#[test]
fn the_three_are_read() {
    let flags = GroupFlags { attribute: 2, ..GroupFlags::default() };
    let entries = vec![ContactEntry { address: GroupAddress(0x10_0001), text: vec![0x41] }];
    let operation = Operation::Add;
    assert_eq!(read(RESPONSE), Setting::GroupContacts { operation, flags, entries });
    let flags = IndividualFlags::default();
    let entries = vec![ContactEntry { address: IndividualAddress(0x10_0001), text: Vec::new() }];
    assert_eq!(read(INDIVIDUAL), Setting::IndividualContacts { operation, flags, entries });
    let flags = LineFlags { pabx: true, ..LineFlags::default() };
    let line = Line { digits: vec![2, 3, 4, 5], flags, text: Vec::new() };
    assert_eq!(read(SLOT), Setting::LineSlot { index: 3, slot: Some(line) });
    for setting in [RESPONSE, INDIVIDUAL, SLOT] {
        assert_eq!(read(setting).write(), bytes(setting));
        assert_eq!(alone(setting), 0);
    }
}

/// Each flag by itself, beside reserved bits that are all 1.
#[test]
fn flags_have_their_places() {
    let group = |setting| match read(setting) {
        Setting::GroupContacts { flags, .. } => flags,
        other => panic!("{other:?}"),
    };
    let none = GroupFlags { attribute: 3, ..GroupFlags::default() };
    assert_eq!(group("C8 00 05 70 3F 00"), none);
    assert_eq!(group("C8 00 05 78 3F 00"), GroupFlags { broadcast: true, ..none });
    assert_eq!(group("C8 00 05 74 3F 00"), GroupFlags { encryption: true, ..none });
    assert_eq!(group("C8 00 05 72 3F 00"), GroupFlags { ovcm: true, ..none });
    assert_eq!(group("C8 00 05 71 3F 00"), GroupFlags { emergency: true, ..none });
    assert_eq!(group("C8 00 05 70 7F 00"), GroupFlags { priority: 1, ..none });
    assert_eq!(group("C8 00 05 70 BF 00"), GroupFlags { priority: 2, ..none });
    let individual = |setting| match read(setting) {
        Setting::IndividualContacts { flags, .. } => {
            (flags.encryption, flags.emergency, flags.priority)
        }
        other => panic!("{other:?}"),
    };
    assert_eq!(individual("C9 00 04 63 00"), (true, false, 0));
    assert_eq!(individual("C9 00 04 53 00"), (false, true, 0));
    assert_eq!(individual("C9 00 04 47 00"), (false, false, 1));
    assert_eq!(individual("C9 00 04 4B 00"), (false, false, 2));
    let line = |setting| match read(setting) {
        Setting::LineSlot { index, slot } => (index, slot.expect("an add").flags),
        other => panic!("{other:?}"),
    };
    let none = LineFlags::default();
    assert_eq!(line("D3 00 07 61 F0 1F 00 00"), (0, LineFlags { encryption: true, ..none }));
    assert_eq!(line("D3 00 07 51 FF 1F 00 00"), (15, LineFlags { emergency: true, ..none }));
    assert_eq!(line("D3 00 07 49 F8 1F 00 00"), (8, LineFlags { priority: 2, ..none }));
    assert_eq!(line("D3 00 07 45 F1 1F 00 00"), (1, LineFlags { priority: 1, ..none }));
    assert_eq!(line("D3 00 07 43 F7 1F 00 00"), (7, LineFlags { pabx: true, ..none }));
}

#[test]
fn an_attribute_is_not_00() {
    for operation in [0x40, 0x80, 0xC0] {
        for attribute in 0..4 {
            let head = operation | attribute << 4;
            let wanted = if attribute == 0 { 4 } else { 0 };
            assert_eq!(alone(&format!("C8 00 0A {head:02X} 00 01 10 00 01 00 00")), wanted);
            assert_eq!(alone(&format!("C8 00 05 {head:02X} 00 00")), wanted);
        }
    }
    // Free in a D1 delete alone.
    assert_eq!(alone("D1 00 09 80 00 00 00 00 00 00"), 0);
    assert_eq!(alone("D1 00 09 40 00 10 00 01 00 00"), 4);
}

#[test]
fn operations() {
    for (kind, zero, replace) in [(0xC8, 4, 0), (0xC9, 4, 0), (0xD3, 4, 4)] {
        for (operation, wanted) in [(0, zero), (1, 0), (2, 0), (3, replace)] {
            let setting = match kind {
                0xC8 => format!("C8 00 05 {:02X} 00 00", operation << 6 | 0x10),
                0xC9 => format!("C9 00 04 {:02X} 00", operation << 6),
                _ => format!("D3 00 07 {:02X} 00 1F 00 00", operation << 6),
            };
            assert_eq!(alone(&setting), wanted, "{setting}");
        }
    }
}

/// In adds, replaces and deletes.
#[test]
fn addresses_are_in_range() {
    for operation in [0x40, 0x80, 0xC0] {
        for (address, wanted) in [
            ("0F FF FF", 4),
            ("10 00 00", 4),
            ("10 80 00", 4),
            ("FF 80 00", 4),
            ("00 00 00", 4),
            ("10 00 01", 0),
            ("10 80 01", 0),
            ("FF FF FF", 0),
        ] {
            let head = operation | 0x20;
            assert_eq!(alone(&format!("C8 00 0A {head:02X} 00 01 {address} 00 00")), wanted);
            assert_eq!(alone(&format!("C9 00 09 {operation:02X} 01 {address} 00 00")), wanted);
        }
    }
}

#[test]
fn numbers_are_in_range() {
    for operation in ["40", "80"] {
        for (length, number, wanted) in [
            (7, "0F", 0),
            (7, "FF", 4),
            (7, "1E", 4),
            (7, "AF", 4),
            (8, "12 FF", 0),
            (8, "12 F0", 4),
            (8, "1F FF", 4),
            (16, "12 34 56 78 90 12 34 56 78 FF", 0),
            (16, "12 34 56 78 90 12 34 56 78 9F", 4),
            (17, "12 34 56 78 90 12 34 56 78 90 FF", 4),
        ] {
            let setting = format!("D3 00 {length:02X} {operation} 00 {number} 00 00");
            assert_eq!(alone(&setting), wanted, "{setting}");
        }
    }
}

#[test]
fn texts_are_well_formed() {
    let units = |count: usize| " 00 41".repeat(count);
    for operation in ["60", "A0", "E0"] {
        let of =
            |units: &str, length| format!("C8 00 {length:02X} {operation} 00 01 10 00 01{units}");
        assert_eq!(alone(&of(&(units(16) + " 00 00"), 42)), 0);
        assert_eq!(alone(&of(&(units(17) + " 00 00"), 44)), 4);
        assert_eq!(alone(&of(&units(16), 40)), 4);
        assert_eq!(alone(&of(" 00", 9)), 4);
    }
    assert_eq!(alone(&format!("C9 00 29 80 01 10 00 01{} 00 00", units(16))), 0);
    assert_eq!(alone(&format!("C9 00 2B 80 01 10 00 01{} 00 00", units(17))), 4);
    assert_eq!(alone(&format!("D3 00 27 80 00 1F{} 00 00", units(16))), 0);
    assert_eq!(alone(&format!("D3 00 29 80 00 1F{} 00 00", units(17))), 4);
}

#[test]
fn least_and_most() {
    for coding in Coding::ALL {
        let any = usize::from(u16::MAX);
        assert_eq!((bounds(0xC8, coding), bounds(0xC9, coding)), (5..=any, 4..=any));
    }
    assert_eq!(bounds(0xD3, Coding::Eight), 6..=31);
    assert_eq!(bounds(0xD3, Coding::Unicode), 7..=48);
    let (number, zeros) = ("12 34 56 78 90 12 34 56 78 FF", " 00 00");
    assert_eq!(alone(&format!("D3 00 30 7E 0F {number}{}{zeros}", " 4E 2D".repeat(16))), 0);
    assert_eq!(alone_eight(&format!("D3 00 1F 7E 0F {number}{} 00", " FF".repeat(16))), 0);
    assert_eq!(alone("D3 00 07 40 00 1F 00 00"), 0);
    assert_eq!(alone_eight("D3 00 06 40 00 1F 00"), 0);
    assert_eq!(alone("D3 00 06 40 00 1F 00"), 4);
    assert_eq!(alone_eight("D3 00 07 40 00 1F 00 00"), 4);
    // A C8 of four bytes has no Count; what follows would be its.
    assert_eq!(alone("C8 00 04 D0 00"), 4);
    assert_eq!(alone("C8 00 04 D0 00 00"), 4);
    assert_eq!(alone("C8 00 06 D0 00 00"), 4);
    assert_eq!(alone("C9 00 03 C0"), 4);
    assert_eq!(alone("C9 00 05 C0 00"), 4);
    assert_eq!(alone_eight("C8 00 0A 60 00 01 10 00 01 41 00"), 0);
    assert_eq!(alone_eight(RESPONSE), 4);
    assert_eq!(alone_eight("C9 00 08 40 01 10 00 01 00"), 0);
    assert_eq!(alone_eight(INDIVIDUAL), 4);
}

#[test]
fn thirteen_types() {
    for kind in 0..=255 {
        let known = matches!(kind, 0xC8..=0xD3 | 0xFF);
        let wanted = if known { Fault::Field } else { Fault::UnknownType };
        assert_eq!(parse(&[kind], Coding::Unicode, true), Err(wanted), "{kind:02X}");
    }
    for kind in ["C7", "D4", "D5", "D6"] {
        assert_eq!(alone(&format!("{kind} 00 09 40 00 10 00 01 00 00")), 3);
    }
}
