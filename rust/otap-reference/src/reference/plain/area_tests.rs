//! Request A12 by hand: which bytes are an area, how one starts, and where it ends.

use super::by_hand::*;
use super::*;
use crate::reference::by_hand::{bytes, request_of};
use crate::reference::message::{query, Hash};

const CHANNEL: &str = "CE 00 06 40 01 0F 1F";
const HOME: &str = "CD 00 05 07 E4 C0";
const LAST: &str = "FF 00 07 41 12 34 56 78";
const HASH: Hash = Hash::Crc([0x12, 0x34, 0x56, 0x78]);

/// That each call refuses these bytes with 11 and leaves them, whatever it is asked.
fn is_none(area: &[u8]) {
    let mut same = area.to_vec();
    for message in [request_of(&[HOME]), query(&HASH), Vec::new()] {
        assert_eq!(number(&mut same, &message), (11, 0));
    }
    let mut scratch = [0xEE; PLAIN_SCRATCH_ROOM];
    assert_eq!(plain_row_number(1, 0, area, &scratch), 11);
    assert_eq!(plain_row_part(1, 0, area, &mut scratch), PlainShown::Nothing);
    assert_eq!(scratch, [0xEE; PLAIN_SCRATCH_ROOM]);
}

fn is_one(area: &[u8]) {
    assert_eq!(number(&mut area.to_vec(), &query(&Hash::Nothing)), (5, 0));
    assert_eq!(plain_row_number(9, 0, area, &[0; PLAIN_SCRATCH_ROOM]), 17);
}

/// An area with these bytes behind the used length, which is true.
fn of(records: &[u8]) -> Vec<u8> {
    let mut area = vec![0; AREA];
    area[..USED].copy_from_slice(&(records.len() as u32).to_be_bytes());
    area[USED..USED + records.len()].copy_from_slice(records);
    area
}

/// A message behind its length.
fn record(message: &[u8]) -> Vec<u8> {
    [&(message.len() as u16).to_be_bytes(), message].concat()
}

#[test]
fn starting() {
    assert!(started().iter().all(|&byte| byte == 0));
    let mut used = after(&[&[CHANNEL], &[HOME]]);
    assert_eq!(plain_start(&mut used), 0);
    assert_eq!(used, started());
    for size in [0, 1, 4, 24_576, AREA - 1, AREA + 1, 2 * AREA] {
        let mut other = vec![0xEE; size];
        assert_eq!(plain_start(&mut other), 11);
        assert!(other.iter().all(|&byte| byte == 0xEE));
    }
}

/// Byte for byte, as they were received: with a length of 0 and with reserved bits too.
#[test]
fn what_is_kept() {
    let first = bytes("02 02 00 00 08 F7 08 01 CE 00 06 7C 01 0F 1F");
    let second = bytes("02 02 00 0A 08 07 08 01 CD 00 05 07 E4 DF");
    let mut area = started();
    assert_eq!(number(&mut area, &first), (0, 0));
    assert_eq!(area, of(&record(&first)));
    assert_eq!(area[..6], [0, 0, 0, 17, 0, 15]);
    assert_eq!(number(&mut area, &second), (0, 0));
    assert_eq!(area, of(&[record(&first), record(&second)].concat()));
    assert_eq!(area[..4], [0, 0, 0, 33]);
    assert_eq!(area[21..23], [0, 14]);
    is_one(&area);
}

#[test]
fn another_size() {
    let area = after(&[&[CHANNEL]]);
    for size in [0, 3, 4, 21, AREA - 1] {
        is_none(&area[..size]);
    }
    is_none(&[&area[..], &[0]].concat());
}

#[test]
fn the_used_length() {
    let area = after(&[&[CHANNEL], &[HOME]]);
    let right = used(&area);
    let wrong = [0, 1, 2, right - 1, right + 1, right + 2, AREA - USED, AREA - USED + 1, AREA];
    for length in wrong.into_iter().map(|length| length as u32).chain([u32::MAX]) {
        let mut changed = area.clone();
        changed[..USED].copy_from_slice(&length.to_be_bytes());
        is_none(&changed);
    }
    // Where what is not counted any more is cleared, and no request is cut, it is an area again.
    let mut shorter = of(&area[USED..USED + 17]);
    assert_eq!(shorter, after(&[&[CHANNEL]]));
    is_one(&shorter);
    shorter[3] -= 1;
    shorter[20] = 0;
    is_none(&shorter);
    // Also where the request that is cut goes on with zeros, as the rest does.
    let mut cut = after(&[&["CA 00 07 40 01 1F 00 00"]]);
    for _ in 0..2 {
        cut[3] -= 1;
        is_none(&cut);
    }
}

/// Every byte of the rest, even the last.
#[test]
fn behind_the_used_length() {
    for area in [started(), after(&[&[CHANNEL]])] {
        for place in [USED + used(&area), USED + used(&area) + 1, 4_096, AREA - 1] {
            let mut changed = area.clone();
            changed[place] = 1;
            is_none(&changed);
        }
    }
    // In a full one there is no rest.
    is_one(&with_left(0));
}

/// A length that is one more or less, and each byte of a request that it cannot be taken without.
#[test]
fn within_a_request() {
    let area = after(&[&[CHANNEL], &[HOME]]);
    let start = USED + 17 + LENGTH;
    // Version, length, MFID, coding type, OTAPVer and MsgType, ParamSum; then type, DataLength, NP 807.
    for (place, value) in [
        (0, 3),
        (3, 11),
        (4, 9),
        (5, 0),
        (6, 0x10),
        (6, 0x09),
        (7, 2),
        (8, 0xC7),
        (10, 6),
        (13, 0xE0),
    ] {
        let mut changed = area.clone();
        changed[start + place] = value;
        is_none(&changed);
    }
    for (place, value) in [(5, 14), (5, 16), (4, 1), (22, 13), (22, 15), (21, 1)] {
        let mut changed = area.clone();
        changed[place] = value;
        is_none(&changed);
    }
    // A byte that may be another is one of another request, which is taken as well: NZI 14.
    let mut changed = area.clone();
    changed[start + 11] = 0x06;
    is_one(&changed);
}

/// In their turn: two of 33 channels are one too many for the second, and a delete between them makes room.
#[test]
fn in_their_turn() {
    let channels = request_of(&[&format!("CE 00 36 40 21 {}0F 1F", "0F 10 F1 ".repeat(16))]);
    let none = request_of(&["CE 00 04 C0 00"]);
    is_one(&of(&record(&channels)));
    is_none(&of(&[record(&channels), record(&channels)].concat()));
    is_one(&of(&[record(&channels), record(&none), record(&channels)].concat()));
    is_none(&of(&[record(&channels), record(&channels), record(&none)].concat()));
}

/// What is no request: nothing at all, and queries, one that matches too.
#[test]
fn records_of_another_kind() {
    let kept = record(&request_of(&[LAST]));
    for other in [Vec::new(), vec![2; 6], query(&Hash::Nothing), query(&HASH), query_of_types()] {
        is_none(&of(&[kept.clone(), record(&other)].concat()));
    }
    // With a request of no byte too little, and one byte of a length.
    is_none(&of(&[kept.clone(), vec![0]].concat()));
    is_one(&of(&kept));
}

fn query_of_types() -> Vec<u8> {
    bytes("02 02 00 05 08 07 0A 01 CA")
}

/// The last byte may be used, and no byte more; what is smaller may follow.
#[test]
fn the_end() {
    let mut area = with_left(100);
    assert_eq!(number(&mut area, &of_size(99)), (18, 0));
    assert_eq!(number(&mut area, &of_size(4_096)), (18, 0));
    assert_eq!(number(&mut area, &of_size(50)), (0, 0));
    assert_eq!(number(&mut area, &of_size(47)), (18, 0));
    assert_eq!(number(&mut area, &of_size(26)), (0, 0));
    assert_eq!(number(&mut area, &of_size(18)), (0, 0));
    assert_eq!(used(&area), AREA - USED);
    is_one(&area);
    assert_eq!(number(&mut area, &of_size(17)), (18, 0));
    let mut other = with_left(100);
    assert_eq!(number(&mut other, &of_size(98)), (0, 0));
    assert_eq!(used(&other), AREA - USED);
    // One byte, or none, has no room for a length.
    for left in [0, 1, 2, 3] {
        assert_eq!(number(&mut with_left(left), &of_size(17)), (18, 0));
    }
}

/// 18 comes last: whatever else is wrong keeps its number, and a query is answered as ever.
#[test]
fn in_a_full_area() {
    let mut area = with_left(20);
    assert_eq!(plain_take(&of_size(50), &mut area, &mut [0; REPLY_ROOM - 1]).number, 10);
    let mut good = of_size(50);
    assert_eq!(number(&mut area, &good), (18, 0));
    good[6] = 0x10;
    assert_eq!(number(&mut area, &good), (1, 0));
    good[6] = 0x09;
    assert_eq!(number(&mut area, &good), (14, 0));
    good[3] += 1;
    assert_eq!(number(&mut area, &good), (13, 0));
    assert_eq!(number(&mut area, &good[..6]), (12, 0));
    assert_eq!(number(&mut area, &request_of(&[HOME, "CD 00 05 07 E4 E0", LAST])), (4, 2));
    assert_eq!(number(&mut area, &request_of(&[HOME, HOME, HOME, "C7 00"])), (3, 4));
    let many = format!("CE 00 66 C0 41 {}0F 1F", "0F 10 F1 ".repeat(32));
    assert_eq!(number(&mut area, &request_of(&[&many])), (2, 1));
    assert_eq!(number(&mut area, &query(&HASH)), (5, 0));
    assert_eq!(number(&mut area, &request_of(&[LAST, LAST])), (4, 1));
    assert_eq!(number(&mut area, &request_of(&[LAST])), (0, 0));
    assert_eq!(number(&mut area, &query(&HASH)), (0, 0));
}
