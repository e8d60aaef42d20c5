//! Reading by hand: every parameter with its places, what the reader is lenient about, and whole messages.

use super::*;
use crate::inputs::sweep::sweep;
use crate::reference::by_hand::{bytes, report_of, reported, taken, EVERY_PARAMETER, EVERY_TABLE};
use crate::reference::limits::HANDHELD;
use crate::reference::reports::asked;
use crate::reference::settings::{GroupSlot, HomeNumbers, IndividualSlot, SystemCode};
use crate::reference::tables::Set;

/// Of a hand-held's report.
fn read(message: &[u8]) -> Result<ReadReport, u8> {
    super::read(message, HANDHELD)
}

fn read_items(count: u8, parameters: &str) -> Vec<Item> {
    read(&report_of(count, parameters)).expect("a report").items()
}

fn text_entry(key: u8, text: &str) -> TextEntry {
    TextEntry { key, text: text.encode_utf16().collect() }
}

#[test]
fn contacts() {
    let slot = GroupSlot {
        attribute: 1,
        broadcast: false,
        encryption: true,
        ovcm: false,
        emergency: false,
        priority: 2,
        address: GroupAddress(0x10_0001),
        text: vec![0x41],
    };
    let group = Item::GroupContact { index: 0, slot };
    assert_eq!(read_items(1, "88 00 10 00 01 05 20 00 41 00 00"), [group]);
    let slot = IndividualSlot {
        encryption: false,
        emergency: true,
        priority: 3,
        address: IndividualAddress(0x10_03E9),
        text: Vec::new(),
    };
    let individual = Item::IndividualContact { index: 15, slot };
    assert_eq!(read_items(1, "89 00 10 03 E9 F7 00 00"), [individual]);
    let flags = LineFlags { encryption: true, emergency: false, priority: 1, pabx: true };
    let line = Line { digits: vec![2, 3, 4, 5], flags, text: vec![0x41] };
    let line = Item::LineContact { index: 9, line };
    assert_eq!(read_items(1, "8A 00 C8 09 23 45 FF 00 41 00 00"), [line]);
}

#[test]
fn all_others() {
    let key = EmergencyKey {
        group: true,
        voice: true,
        status: false,
        siren: true,
        address: Some(0x10_0001),
    };
    assert_eq!(read_items(1, "8B 00 A8 10 00 01"), [Item::EmergencyKey(key)]);
    let key = EmergencyKey { group: true, status: true, ..EmergencyKey::default() };
    assert_eq!(read_items(1, "8B 00 D0 00 00 00"), [Item::EmergencyKey(key)]);
    assert_eq!(read_items(1, "8C 00 14 00 41 00 00"), [Item::QuickText(text_entry(5, "A"))]);
    let home = HomeNumbers { nzi: 1, np: 806 };
    assert_eq!(read_items(1, "8D 00 00 E4 C0"), [Item::HomeNumbers(home)]);
    let channels = "8E 00 0F 10 00 8E 00 28 0F FF";
    let read = [(0, 241), (4_095, 640)].map(|(index, channel)| Item::Channel { index, channel });
    assert_eq!(read_items(2, channels), read);
    let code = SystemCode { lai: 1, la: 8, roaming: 2, par: true };
    assert_eq!(read_items(1, "8F 00 00 18 A0"), [Item::SystemCode(code)]);
    let status = Item::StatusText { index: 7, entry: text_entry(33, "B") };
    assert_eq!(read_items(1, "90 00 21 07 00 42 00 00"), [status]);
    assert_eq!(read_items(1, "BF 00"), [Item::KeptHash(Hash::Nothing)]);
    let hash = Hash::Crc([1, 2, 3, 4]);
    assert_eq!(read_items(1, "BF 01 01 01 02 03 04"), [Item::KeptHash(hash)]);
    let hash = Hash::Stamped([1, 2, 3, 4, 5, 6, 7, 8, 9, 10]);
    let stamped = "BF 01 02 01 02 03 04 05 06 07 08 09 0A";
    assert_eq!(read_items(1, stamped), [Item::KeptHash(hash)]);
    assert_eq!(read_items(1, "D1 83"), [Item::Unknown(0xD1)]);
    assert_eq!(read_items(2, "BF 00 BF 83"), [Item::KeptHash(Hash::Nothing), Item::Unknown(0xBF)]);
    assert_eq!(read_items(0, ""), []);
}

/// What a set reports is read as what was asked for.
#[test]
fn a_set_is_read_back() {
    let set = taken(&EVERY_TABLE);
    let types: Vec<u8> = EVERY_PARAMETER.iter().map(|(asked, _)| *asked).collect();
    let hex: Vec<String> = types.iter().map(|asked| format!("{asked:02X}")).collect();
    let report = read(&reported(&set, &hex.join(" "))).expect("a report");
    assert_eq!((report.total, report.index), (1, 1));
    assert_eq!(report.items(), asked(&types, &set));
    let fresh = read(&reported(&Set::fresh(HANDHELD), "CC")).expect("a report of nothing");
    assert_eq!(fresh, ReadReport { total: 1, index: 1, entries: Vec::new() });
}

#[test]
fn places_of_the_parts() {
    let at = |hex: &str| {
        let Places { behind, text, number } =
            entry_at(&report_of(1, hex), 10).expect("a parameter").places;
        (behind, text, number)
    };
    let [group, individual, line, key, quick, home, channel, code, status, hash] =
        EVERY_PARAMETER.map(|(_, hex)| at(hex));
    assert_eq!(group, (21, Some(17..19), None));
    assert_eq!(individual, (18, Some(16..16), None));
    assert_eq!(line, (21, Some(17..19), Some(14)));
    assert_eq!(quick, (17, Some(13..15), None));
    assert_eq!(status, (18, Some(14..16), None));
    assert_eq!(hash, (17, None, Some(13)));
    assert_eq!([key, home, channel, code].map(|places| places.0), [16, 15, 15, 15]);
    assert_eq!(at("BF 00"), (12, None, None));
    assert_eq!(at("D1 83"), (12, None, None));
    assert_eq!(at("8A 00 00 00 12 3F 00 00"), (18, Some(16..16), Some(14)));
}

/// The carrier is not looked at, nor what stands behind; each starts where the one before it ends.
#[test]
fn by_the_bytes_alone() {
    let message = bytes("FF 00 8E 00 0F 10 00 D1 83 8B 00 40 00 00 00 EE EE");
    let item = |at| entry_at(&message, at).map(|entry| entry.item.asked());
    let found: Vec<(usize, u8)> = (0..40).filter_map(|at| Some((at, item(at)?))).collect();
    assert_eq!(found, [(2, 0xCE), (7, 0xD1), (9, 0xCB)]);
    assert_eq!((entry_at(&message, usize::MAX), entry_at(&[], 0)), (None, None));
    let cut = &message[..14];
    assert_eq!(entry_at(cut, 9), None);
}

/// Reserved bits of the carrier and of every parameter, and index fields of any value.
#[test]
fn lenient() {
    let mut message = report_of(1, "8E 00 0F 1F FF");
    message[5] = 0xF7;
    let channel = Item::Channel { index: 4_095, channel: 241 };
    assert_eq!(read(&message).expect("a report").items(), [channel]);
    for (plain, reserved) in [
        ("88 00 10 00 01 05 20 00 00", "88 00 10 00 01 05 2F 00 00"),
        ("8A 00 80 00 7F 00 00", "8A 00 87 F0 7F 00 00"),
        ("8B 00 40 00 00 00", "8B 00 47 00 00 00"),
        ("8C 00 14 00 41 00 00", "8C 00 17 00 41 00 00"),
        ("8D 00 00 E4 C0", "8D 00 00 E4 DF"),
        ("8F 00 00 18 A0", "8F 00 00 18 BF"),
    ] {
        assert_eq!(read_items(1, plain), read_items(1, reserved), "{reserved}");
    }
    // The same entry twice, and status texts by falling code.
    assert_eq!(read_items(2, "8E 00 0F 10 00 8E 00 0F 10 00").len(), 2);
    assert_eq!(read_items(2, "90 00 22 00 00 00 90 00 21 00 00 00").len(), 2);
    // Units that are half a pair, and FFFF.
    assert_eq!(read_items(1, "90 00 20 00 D8 00 FF FF 00 00").len(), 1);
}

/// The length may be left out, as in every message.
#[test]
fn unstated_length() {
    let mut message = report_of(1, "8E 00 0F 10 00");
    message[3] = 0;
    assert!(read(&message).is_ok());
    for wrong in [1, 10, 12, 15] {
        message[3] = wrong;
        assert_eq!(read(&message), Err(13));
    }
}

/// Totals and indexes of several messages.
#[test]
fn several_messages() {
    for (total, index) in [(1, 1), (2, 1), (2, 2), (255, 1), (255, 128), (255, 255)] {
        let mut message = report_of(1, "8E 00 0F 10 00");
        message[7..9].copy_from_slice(&[total, index]);
        let report = read(&message).expect("a report");
        assert_eq!((report.total, report.index, report.entries.len()), (total, index, 1));
    }
}

/// Every one-byte change and every cut of a report with all parameters: what is read is written again but for reserved bits.
#[test]
fn every_one_byte_change() {
    let all: Vec<&str> = EVERY_PARAMETER.iter().map(|(_, hex)| *hex).collect();
    let data = bytes(&format!("0B 01 01 0B {} D1 83", all.join(" ")));
    let (mut taken, mut refused) = (0, 0);
    for message in sweep((7, &data)) {
        let Ok(report) = read(&message) else {
            refused += 1;
            continue;
        };
        taken += 1;
        let written: Vec<u8> = report.items().iter().flat_map(Item::bytes).collect();
        assert_eq!(written.len(), message.len() - REPORT_HEAD);
        let differ =
            written.iter().zip(&message[REPORT_HEAD..]).filter(|(one, other)| one != other);
        assert!(differ.count() <= 1);
    }
    println!("{taken} taken, {refused} refused");
    assert!(taken > 1_000 && refused > 10_000);
}
