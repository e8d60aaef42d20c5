//! Damaged reports by hand: each breaks one rule of what the reader takes.

use super::*;
use crate::reference::by_hand::{bytes, report_of};
use crate::reference::limits::{HANDHELD, VEHICLE};

/// Of a hand-held's report.
fn read(message: &[u8]) -> Result<ReadReport, u8> {
    super::read(message, HANDHELD)
}

/// A text of so many units and its end.
fn units(count: usize) -> String {
    "00 41 ".repeat(count) + "00 00"
}

/// No parameter starts there, and a report of it alone is refused.
fn assert_none(parameter: &str) {
    let message = report_of(1, parameter);
    assert_eq!(entry_at(&message, REPORT_HEAD), None, "{parameter}");
    assert_eq!(read(&message), Err(4), "{parameter}");
}

fn assert_one(parameter: &str) {
    assert!(read(&report_of(1, parameter)).is_ok(), "{parameter}");
}

#[test]
fn results_and_reasons() {
    for rest in [
        ("88", "10 00 01 05 20 00 00"),
        ("89", "10 00 01 00 00 00"),
        ("8A", "80 00 7F 00 00"),
        ("8B", "40 00 00 00"),
        ("8C", "14 00 41 00 00"),
        ("8D", "00 00 00"),
        ("8E", "0F 10 00"),
        ("8F", "00 00 00"),
        ("90", "21 00 00 00"),
    ] {
        assert_one(&format!("{} 00 {}", rest.0, rest.1));
        for result in 1..=255 {
            let parameter = format!("{} {result:02X} {}", rest.0, rest.1);
            // 83 is an error, which has nothing behind it.
            if result != 0x83 {
                assert_none(&parameter);
            }
            assert_eq!(read(&report_of(1, &parameter)), Err(4), "{parameter}");
        }
    }
}

#[test]
fn errors() {
    for byte in 0..=255 {
        let asks = matches!(byte, 0xC8..=0xD0 | 0xFF);
        let read = read(&report_of(1, &format!("{byte:02X} 83"))).is_ok();
        assert_eq!(read, !asks, "{byte:02X}");
    }
    for result in (0..=255).filter(|&result| result != 0x83) {
        assert_none(&format!("D1 {result:02X}"));
        assert_none(&format!("88 {result:02X}"));
    }
    assert_none("D1");
    // One starts there, but something stands behind it.
    assert_eq!(read(&report_of(1, "D1 83 00")), Err(4));
}

/// Only the last parameter of the last message.
#[test]
fn errors_in_their_place() {
    let home = "8D 00 00 00 00";
    assert!(read(&report_of(2, &format!("{home} D1 83"))).is_ok());
    for parameters in [format!("D1 83 {home}"), "D1 83 D1 83".to_string()] {
        assert_eq!(read(&report_of(2, &parameters)), Err(4), "{parameters}");
    }
    let mut message = report_of(2, &format!("{home} D1 83"));
    message[7..9].copy_from_slice(&[2, 1]);
    assert_eq!(read(&message), Err(4));
    message[7..9].copy_from_slice(&[2, 2]);
    assert!(read(&message).is_ok());
}

#[test]
fn addresses_and_attributes() {
    for address in ["00 00 00", "0F FF FF", "10 00 00", "10 80 00", "FF 80 00", "00 80 01"] {
        assert_none(&format!("88 00 {address} 05 20 00 00"));
        assert_none(&format!("89 00 {address} 00 00 00"));
        assert_none(&format!("8B 00 80 {address}"));
        assert_none(&format!("8B 00 00 {address}"));
    }
    for address in ["10 00 01", "10 7F FF", "FF FF FF"] {
        assert_one(&format!("88 00 {address} 05 20 00 00"));
        assert_one(&format!("8B 00 00 {address}"));
        // The current place has none.
        assert_none(&format!("8B 00 40 {address}"));
        assert_none(&format!("8B 00 C0 {address}"));
    }
    assert_none("88 00 10 00 01 03 20 00 00");
    assert_none("8B 00 40 00 00 01");
    assert_none("8B 00 C0");
}

#[test]
fn texts() {
    let heads = ["88 00 10 00 01 05 20", "89 00 10 00 01 00", "8A 00 80 00 7F", "90 00 21 00"];
    for head in heads {
        for count in [0, 1, 16] {
            assert_one(&format!("{head} {}", units(count)));
        }
        assert_none(&format!("{head} {}", units(17)));
        // Without an end, and with half of one.
        assert_none(head);
        assert_none(&format!("{head} 00"));
        assert_none(&format!("{head} 00 41"));
    }
    for (count, is_one) in [(0, false), (1, true), (23, true), (24, false)] {
        let parameter = format!("8C 00 14 {}", units(count));
        if is_one {
            assert_one(&parameter);
        } else {
            assert_none(&parameter);
        }
    }
}

#[test]
fn numbers() {
    let line = |digits: &str| format!("8A 00 00 00 {digits} 00 00");
    for good in ["1F", "12 FF", "99 99 99 99 99 99 99 99 99 FF"] {
        assert_one(&line(good));
    }
    // None, 19, a digit above 9, a filling that is none, and no end.
    for bad in ["FF", "99 99 99 99 99 99 99 99 99 9F", "1A FF", "E1 FF", "12 F0", "12 FE", "12"] {
        assert_none(&line(bad));
    }
}

#[test]
fn other_ranges() {
    for (channel, is_good) in [(0, false), (240, false), (241, true), (640, true), (641, false)] {
        let parameter = format!("8E 00 {:02X} {:02X} 00", channel >> 4, channel << 4 & 0xFF);
        assert_eq!(read(&report_of(1, &parameter)).is_ok(), is_good, "{channel}");
    }
    // NP 806 and 807.
    assert_one("8D 00 07 E4 C0");
    assert_none("8D 00 07 E4 E0");
    // LA 8 and 9, roaming 10 and 11.
    assert_one("8F 00 00 08 80");
    assert_none("8F 00 00 09 80");
    assert_none("8F 00 00 08 C0");
    for (code, is_good) in [(31, false), (32, true), (127, true), (128, false)] {
        let parameter = format!("90 00 {code:02X} 00 00 00");
        assert_eq!(read(&report_of(1, &parameter)).is_ok(), is_good, "{code}");
    }
}

#[test]
fn hashes() {
    assert_one("BF 01 01 01 02 03 04");
    for none in [
        "BF",
        "BF 01",
        "BF 01 00",
        "BF 01 01 01 02 03",
        "BF 01 02 01 02 03 04 05 06 07 08 09",
        "BF 01 03 01 02 03 04",
        "BF 01 41 01 02 03 04",
        "BF 02 01 01 02 03 04 01 01 02 03 04",
        "BF 41 01 02 03 04",
    ] {
        assert_none(none);
    }
    assert_eq!(read(&report_of(1, "BF 00 00")), Err(4));
    assert_eq!(read(&report_of(1, "BF 00 01 02 03 04")), Err(4));
    assert_eq!(read(&report_of(1, "BF 01 01 01 02 03 04 05")), Err(4));
}

/// FF asks, C8 is a setting's, 9E is never written, and 91 is no type.
#[test]
fn other_types() {
    for parameter in ["CE 00 0F 10 00", "FF 00", "9E 00 01", "91 00 00", "8E", "00 00"] {
        assert_none(parameter);
    }
}

#[test]
fn counts_and_ends() {
    let two = "8E 00 0F 10 00 8E 00 28 00 01";
    for count in (0..=255).filter(|&count| count != 2) {
        assert_eq!(read(&report_of(count, two)), Err(4), "{count}");
    }
    for length in (10..20).chain([21]) {
        let mut message = report_of(2, two);
        message.resize(length, 0);
        message[3] = (length - 4) as u8;
        assert_eq!(read(&message), Err(4), "{length}");
    }
    for data in ["0B", "0B 01", "0B 01 01"] {
        let message = [bytes("02 02 00 00 08 07"), bytes(data)].concat();
        assert_eq!(read(&message), Err(4), "{data}");
    }
}

#[test]
fn totals_and_indexes() {
    for (total, index) in [(0, 0), (0, 1), (1, 0), (1, 2), (2, 3), (254, 255), (255, 0)] {
        let mut message = report_of(1, "8E 00 0F 10 00");
        message[7..9].copy_from_slice(&[total, index]);
        assert_eq!(read(&message), Err(4), "{total} {index}");
    }
    // Nothing to report is one message.
    for (total, index) in [(2, 1), (2, 2), (255, 255), (0, 0), (1, 0)] {
        let mut message = report_of(0, "");
        message[7..9].copy_from_slice(&[total, index]);
        assert_eq!(read(&message), Err(4), "{total} {index}");
    }
}

#[test]
fn the_order_of_the_refusals() {
    for (message, number) in [
        ("", 12),
        ("03 02 00 02 08 00", 12),
        ("03 02 00 03 08 00 12", 13),
        ("02 02 00 04 08 00 12", 13),
        ("02 02 00 03 09 00 12", 13),
        ("02 02 00 03 08 00 12", 14),
        ("02 02 00 03 08 00 13", 1),
        ("02 02 00 03 08 00 0B", 4),
        ("02 02 00 06 08 04 0B 01 01 00", 4),
        ("02 02 00 06 08 00 0B 01 01 00", 4),
    ] {
        assert_eq!(read(&bytes(message)), Err(number), "{message}");
    }
    let mut long = report_of(1, "8E 00 0F 10 00");
    for (limits, size, number) in
        [(HANDHELD, 4_096, 13), (HANDHELD, 4_097, 12), (VEHICLE, 8_192, 13), (VEHICLE, 8_193, 12)]
    {
        long.resize(size, 0);
        assert_eq!(super::read(&long, limits), Err(number), "{size}");
    }
    for first in (0..=255).filter(|&first| first != 0x0B) {
        let mut message = report_of(0, "");
        message[6] = first;
        assert_eq!(read(&message), Err(if first & 7 == 3 { 1 } else { 14 }), "{first:02X}");
    }
}
