//! What is refused, of the first request and of the second, and in which order.

use super::*;
use crate::reference::by_hand::{bytes, joined, number, number_of, request_of, settings_of_size};
use crate::reference::limits::HANDHELD;
use crate::reference::message::{query, request, request_as, Hash, REQUEST_HEAD, SHORTEST};
use crate::reference::tables::Set;
use crate::reference::texts::Coding;

const HOME: &str = "CD 00 05 07 E4 C0";
/// NP 807, which is one too many.
const NP_807: &str = "CD 00 05 07 E4 E0";
/// Neither a restart nor a reply, and no hash.
const LAST: &str = "FF 00 03 00";

/// Refused with this number and failed ID whichever of the two it is, while the other is good.
fn refused(message: &[u8], wanted: (u8, u8)) {
    let good = request_of(&[HOME]);
    let [as_first, as_second] = [(message, &good[..]), (&good[..], message)]
        .map(|(first, second)| joined(first, second).expect_err("one is wrong"));
    let (number, failed) = wanted;
    assert_eq!(as_first, Refused { number, failed, second: false }, "{message:02X?}");
    assert_eq!(as_second, Refused { number, failed, second: true }, "{message:02X?}");
}

/// A message with these bytes behind its length, which is stated and then left open.
fn refused_data(hex: &str, wanted: (u8, u8)) {
    let data = bytes(hex);
    for stated in [data.len() as u8, 0] {
        refused(&[&[2, 2, 0, stated], &data[..]].concat(), wanted);
    }
}

/// A message of each kind of fault, in the order of the rules, each with all faults that come after its own where it can have them.
fn faults() -> Vec<(Vec<u8>, (u8, u8))> {
    [
        ("02 03 00 09 09 00", (12, 0)),
        ("02 03 00 09 09 00 12 00", (13, 0)),
        ("02 02 00 00 08 00 12 00", (14, 0)),
        ("02 02 00 00 08 00 10 00", (1, 0)),
        ("02 02 00 00 08 00 08 00", (4, 0)),
        ("02 02 00 00 08 07 08 02 C7 FF 00 03 00 CD 00", (3, 1)),
        ("02 02 00 00 08 07 08 02 CD 00 05 07 E4 E0 FF 00 03 00 CD", (4, 1)),
        ("02 02 00 00 08 07 08 02 CD 00 05 07 E4 C0 FF 00 03 00 CD", (4, 0)),
        ("02 02 00 00 08 07 08 02 CD 00 05 07 E4 C0 FF 00 03 00", (4, 2)),
    ]
    .map(|(hex, wanted)| (bytes(hex), wanted))
    .to_vec()
}

#[test]
fn each_of_either() {
    faults().iter().for_each(|(message, wanted)| refused(message, *wanted));
}

/// All that is wrong with the first comes before anything of the second.
#[test]
fn the_first_comes_first() {
    for (first, (number, failed)) in faults() {
        for (second, _) in faults() {
            let wanted = Refused { number, failed, second: false };
            assert_eq!(joined(&first, &second), Err(wanted), "{first:02X?} {second:02X?}");
        }
    }
}

#[test]
fn sizes() {
    let good = request_of(&[HOME]);
    (0..SHORTEST).for_each(|size| refused(&good[..size], (12, 0)));
    let settings = settings_of_size(HANDHELD.message + 1 - REQUEST_HEAD);
    refused(&request(&settings), (12, 0));
    refused(&[0; HANDHELD.message + 1], (12, 0));
}

#[test]
fn carriers() {
    let good = request_of(&[HOME]);
    for (place, byte) in [(0, 1), (1, 3), (4, 9), (3, 9), (3, 11), (2, 1), (2, 10)] {
        let mut message = good.clone();
        message[place] = byte;
        refused(&message, (13, 0));
        // Also where MsgType and version are wrong.
        message[6] = 0xFF;
        refused(&message, (13, 0));
    }
}

/// Every other MsgType, under every version; then every other version, also without a ParamSum.
#[test]
fn first_bytes() {
    for first in 0..=255_u8 {
        let number = match (first & 7, first >> 3) {
            (0, 1) => continue,
            (0, _) => 1,
            _ => 14,
        };
        refused_data(&format!("08 07 {first:02X} 01 {HOME}"), (number, 0));
        refused_data(&format!("08 07 {first:02X}"), (number, 0));
        refused_data(&format!("08 00 {first:02X} 00"), (number, 0));
    }
}

/// What taking answers is not asked of it: a result query is no request.
#[test]
fn result_queries() {
    for hash in [Hash::Nothing, Hash::Crc([1, 2, 3, 4])] {
        assert_eq!(number(&mut Set::fresh(HANDHELD), &query(&hash)), (5, 0));
        refused(&query(&hash), (14, 0));
    }
}

#[test]
fn sums_and_coding_types() {
    refused_data("08 07 08", (4, 0));
    refused_data("08 07 08 00", (4, 0));
    refused_data(&format!("08 07 08 00 {HOME}"), (4, 0));
    for coding in 0..=255_u8 {
        // Reserved bits are no part of it.
        if ![0b0100, 0b0111].contains(&(coding & 15)) {
            refused_data(&format!("08 {coding:02X} 08 01 {HOME}"), (4, 0));
            refused_data(&format!("08 {coding:02X} 08 01 C7"), (4, 0));
        }
    }
}

/// The place is counted in its own request, in the second too.
#[test]
fn settings_at_fault() {
    refused(&request_of(&["C7"]), (3, 1));
    refused(&request_of(&[HOME, HOME, "D4 00 03 00"]), (3, 3));
    refused(&request_of(&[HOME, NP_807, "C7"]), (4, 2));
    refused(&request_of(&[HOME, "C7", NP_807]), (3, 2));
    refused(&request_of(&[HOME, "CD"]), (4, 2));
    let mut many = vec![HOME; 255];
    many[254] = NP_807;
    refused(&request_of(&many), (4, 255));
    // One more is counted than there is.
    refused_data(&format!("08 07 08 02 {HOME}"), (4, 2));
    refused_data("08 07 08 01", (4, 1));
}

#[test]
fn bytes_left_over() {
    refused_data(&format!("08 07 08 01 {HOME} 00"), (4, 0));
    refused_data(&format!("08 07 08 01 {HOME} {HOME}"), (4, 0));
    refused_data(&format!("08 07 08 01 {HOME} {LAST}"), (4, 0));
    refused_data(&format!("08 07 08 02 {HOME} {NP_807} 00"), (4, 2));
}

#[test]
fn last_items() {
    refused(&request_of(&[LAST]), (4, 1));
    refused(&request_of(&[HOME, HOME, LAST]), (4, 3));
    refused(&request_of(&[HOME, "FF 00 07 C1 12 34 56 78"]), (4, 2));
    refused(&request_of(&[[HOME; 254].as_slice(), &[LAST]].concat()), (4, 255));
    // Not the last, or with a HashCode out of range: at fault as a setting.
    refused(&request_of(&[LAST, HOME]), (4, 1));
    refused(&request_of(&[HOME, LAST, LAST]), (4, 2));
    refused(&request_of(&[HOME, LAST, "C7"]), (4, 2));
    refused(&request_of(&["FF 00 03 03"]), (4, 1));
    // Bytes left over come before it, and with them goes its place.
    refused_data(&format!("08 07 08 02 {HOME} {LAST} 00"), (4, 0));
    refused_data(&format!("08 07 08 02 {HOME} {LAST} {LAST}"), (4, 0));
}

/// Taking names the setting without room; joining knows no store and looks past it.
#[test]
fn room_is_not_asked() {
    // 65 channels, of which the last is filled up.
    let channels = format!("CE 00 66 C0 41 {}0F 1F", "0F 10 F1 ".repeat(32));
    let mut set = Set::fresh(HANDHELD);
    for (behind, fault) in [("C7", (3, 2)), (NP_807, (4, 2)), (LAST, (4, 2))] {
        assert_eq!(number_of(&mut set, &[&channels, behind]), (2, 1));
        refused(&request_of(&[&channels, behind]), fault);
    }
    let full = request_of(&[&channels]);
    assert_eq!(joined(&full, &full), Ok(request_of(&[&channels, &channels])));
}

/// What is wrong with the pair comes last: coding types, settings together, bytes together.
#[test]
fn the_pair_comes_last() {
    let of = |coding, size: usize, homes: usize| {
        let settings = [settings_of_size(size), vec![bytes(HOME); homes]].concat();
        request_as(coding, &settings)
    };
    let [eight, unicode] = Coding::ALL;
    // Home numbers are in range under both, the status texts under 0111 alone.
    let homes = request_as(eight, &vec![bytes(HOME); 100]);
    assert_eq!(joined(&homes, &of(unicode, 2_400, 250)), Err(of_neither(4)));
    assert_eq!(joined(&of(unicode, 3_600, 1), &homes), Err(of_neither(4)));
    let [many, long] = [of(unicode, 2_000, 200), of(unicode, 3_000, 1)];
    assert_eq!(joined(&many, &many), Err(of_neither(4)));
    assert_eq!(joined(&many, &long), Err(of_neither(12)));
    // Either alone comes before them.
    let (first, second) = (request_of(&["C7"]), request_of(&[LAST]));
    let of_first = Refused { number: 3, failed: 1, second: false };
    let of_second = Refused { number: 4, failed: 1, second: true };
    assert_eq!(joined(&first, &homes), Err(of_first));
    assert_eq!(joined(&homes, &second), Err(of_second));
}
