//! The four calls of queries and reports, packed, by hand.

use super::*;
use crate::reference::by_hand::{bytes, report_of, taken, EVERY_PARAMETER};
use crate::reference::limits::HANDHELD;
use crate::reference::queries::query;
use crate::reference::report_reading::{entry_at, read};
use crate::reference::reports::report;

fn read_packed(message: &[u8]) -> u64 {
    packed_read_report(read(message, HANDHELD).as_ref().map_err(|&number| number))
}

/// Both answers for a parameter at byte 10.
fn parameter(hex: &str) -> (u64, u64) {
    let entry = entry_at(&report_of(1, hex), 10);
    (packed_report_entry(entry.as_ref()), packed_report_places(entry.as_ref()))
}

#[test]
fn the_report_call() {
    let set = taken(&["CE 00 07 C0 02 0F 12 80"]);
    let asked = |query: &[u8], index, is_store, room: usize| {
        packed_report(report(query, index, is_store, &set, &mut vec![0; room]))
    };
    let good = query(&[0xCE]);
    assert_eq!(asked(&good, 1, true, HANDHELD.message), 0x0014_0100);
    assert_eq!(asked(&good, 2, true, HANDHELD.message), 16);
    assert_eq!(asked(&good, 1, false, HANDHELD.message), 11);
    assert_eq!(asked(&good, 1, true, HANDHELD.message - 1), 15);
    assert_eq!(asked(&query(&[]), 1, true, HANDHELD.message), 4);
    assert_eq!(asked(&bytes("02 02 00 05 08 00 12 01 CE"), 1, true, HANDHELD.message), 1);
}

/// The widest: 229 messages, of which the first has 4,076 bytes.
#[test]
fn a_long_report() {
    let mut set = taken(&["CE 00 04 C0 00"]);
    set.tables.status_texts = vec![Some(vec![0x41; 16]); 96];
    let told = report(&query(&[0xD0; 255]), 1, true, &set, &mut vec![0; HANDHELD.message]);
    assert_eq!(packed_report(told), 0x0FEC_E500);
}

#[test]
fn reading() {
    assert_eq!(read_packed(&report_of(0, "")), 0x0001_0100);
    let mut message = report_of(2, "8E 00 0F 10 00 8E 00 28 00 01");
    assert_eq!(read_packed(&message), 0x0201_0100);
    message[7..9].copy_from_slice(&[255, 254]);
    assert_eq!(read_packed(&message), 0x02FE_FF00);
    message[8] = 0;
    assert_eq!(read_packed(&message), 4);
    assert_eq!(read_packed(&message[..6]), 12);
}

/// What it says, and where its parts stand.
#[test]
fn parameters_of_each_type() {
    let wanted = [
        // Attribute 1, encryption and priority 2: 64, 16 and 2.
        (0x10_0001_0000_52C8, 0x0002_0011_0015),
        // Emergency and priority 3; an empty text stands where its end is.
        (0x10_03E9_0000_07C9, 0x0010_0012),
        // PABX.
        (0x10CA, 0x0400_0E02_0011_0015),
        // Group, voice and siren: 8, 4 and 1.
        (0x10_0001_0000_0DCB, 0x10),
        (0x0005_00CC, 0x0002_000D_0011),
        (0x00_E4C0_0000_00CD, 0x0F),
        (0x00_00F1_0000_00CE, 0x0F),
        (0x00_18A0_0000_00CF, 0x0F),
        (0x0021_00D0, 0x0002_000E_0012),
        (0xFF, 0x0100_0D00_0000_0011),
    ];
    assert_eq!(EVERY_PARAMETER.map(|(_, hex)| parameter(hex)), wanted);
    assert_eq!(parameter("BF 00"), (0xFF, 0x0C));
    assert_eq!(parameter("D1 83"), (0x1000_00D1, 0x0C));
    assert_eq!(parameter("88 83"), (0x1000_0088, 0x0C));
    assert_eq!(parameter("00 83"), (0x1000_0000, 0x0C));
}

/// All bits that each can have, with reserved bits in the message that are none of them.
#[test]
fn the_widest_entries() {
    for (hex, wanted) in [
        ("88 00 FF FF FF FF FF 00 00", 0xFF_FFFF_000F_FFC8),
        ("89 00 FF FF FF FF 00 00", 0xFF_FFFF_000F_0FC9),
        ("8A 00 FF FF 7F 00 00", 0x000F_1FCA),
        ("8B 00 FF 00 00 00", 0x1FCB),
        ("8B 00 BF FF FF FF", 0xFF_FFFF_0000_0FCB),
        ("8B 00 40 00 00 00", 0x10CB),
        ("8C 00 FF 00 41 00 00", 0x003F_00CC),
        // NZI 511 and NP 806.
        ("8D 00 FF E4 DF", 0xFF_E4C0_0000_00CD),
        ("8E 00 28 0F FF", 0x0280_0FFF_00CE),
        ("8F 00 FF F8 BF", 0xFF_F8A0_0000_00CF),
        // The index of a status text is left out.
        ("90 00 7F FF 00 00", 0x007F_00D0),
    ] {
        assert_eq!(parameter(hex).0, wanted, "{hex}");
    }
}

#[test]
fn the_longest_parts() {
    let stamped = "BF 01 02 01 02 03 04 05 06 07 08 09 0A";
    assert_eq!(parameter(stamped).1, 0x0200_0D00_0000_0017);
    // 18 digits and 16 units; a quick text of 23.
    let line = format!("8A 00 00 00 {}FF {}00 00", "99 ".repeat(9), "00 41 ".repeat(16));
    assert_eq!(parameter(&line).1, 0x1200_0E20_0018_003A);
    let quick = format!("8C 00 00 {}00 00", "00 41 ".repeat(23));
    assert_eq!(parameter(&quick).1, 0x002E_000D_003D);
}

/// No parameter: all bits 0.
#[test]
fn nothing_there() {
    for hex in ["", "8E", "8E 00 0F 00 00", "8E 01 0F 10 00", "CE 83", "BF 02"] {
        assert_eq!(parameter(hex), (0, 0), "{hex}");
    }
}

/// A place that 16 bits do not hold.
#[test]
fn far_behind() {
    let far = |at: usize| {
        let message = [vec![0; at], bytes("8D 00 00 00 00")].concat();
        let entry = entry_at(&message, at);
        (packed_report_entry(entry.as_ref()), packed_report_places(entry.as_ref()))
    };
    assert_eq!(far(0xFFFA), (0xCD, 0xFFFF));
    assert_eq!(far(0xFFFB), (0xCD, 0));
}
