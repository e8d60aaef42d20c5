//! Request A12 by hand: what is taken, answered and kept.

use super::by_hand::*;
use super::*;
use crate::reference::by_hand::{bytes, request_of};
use crate::reference::message::{query, Hash};

/// Asks for a restart and a reply, and leaves a hash of code 1.
const LAST: &str = "FF 00 07 C1 12 34 56 78";
const HASH: Hash = Hash::Crc([0x12, 0x34, 0x56, 0x78]);
const HOME: &str = "CD 00 05 07 E4 C0";
const NP_807: &str = "CD 00 05 07 E4 E0";

/// W10 of the rules, with the reply of a hand-held.
#[test]
fn a_request() {
    let mut area = started();
    let (answer, reply) =
        take(&mut area, &bytes("02 02 00 0C 08 07 08 01 CE 00 07 C0 02 0F 12 80"));
    assert_eq!(answer, Answer { number: 0, failed: 0, send: false, reboot: false, length: 10 });
    assert_eq!(reply[..10], bytes("02 02 00 06 08 00 09 00 00 00"));
}

/// Send and reboot are those of FF; the reply carries the hash, and a query matches until the next request.
#[test]
fn a_query_behind_a_last_item() {
    let mut area = started();
    assert_eq!(number(&mut area, &query(&HASH)), (5, 0));
    let (answer, reply) = take(&mut area, &request_of(&[HOME, LAST]));
    assert_eq!(answer, Answer { number: 0, failed: 0, send: true, reboot: true, length: 14 });
    assert_eq!(reply[..14], bytes("02 02 00 0A 08 00 09 00 00 01 12 34 56 78"));
    let (answer, reply) = take(&mut area, &query(&HASH));
    assert_eq!(answer, Answer { number: 0, failed: 0, send: true, reboot: false, length: 14 });
    assert_eq!(reply[..14], bytes("02 02 00 0A 08 00 09 00 00 01 12 34 56 78"));
    let (answer, reply) = take(&mut area, &query(&Hash::Crc([0; 4])));
    assert_eq!((answer.number, answer.length), (5, 14));
    assert_eq!(reply[7..14], bytes("05 00 01 12 34 56 78"));
    // What is refused leaves the hash, and what is taken has its own or none.
    assert_eq!(number(&mut area, &request_of(&[NP_807])), (4, 1));
    assert_eq!(number(&mut area, &query(&HASH)), (0, 0));
    assert_eq!(number(&mut area, &request_of(&[HOME])), (0, 0));
    assert_eq!(number(&mut area, &query(&HASH)), (5, 0));
}

/// Queries are answered and not kept, whatever comes of them: `take` sees that the area stays.
#[test]
fn queries_are_not_kept() {
    let mut area = after(&[&[LAST]]);
    let kept = area.clone();
    for (message, wanted) in [
        (query(&HASH), (0, 0)),
        (query(&Hash::Nothing), (5, 0)),
        (query(&Hash::Stamped([7; 10])), (5, 0)),
        (bytes("02 02 00 04 08 00 0D 03"), (4, 0)),
        (bytes("02 02 00 03 08 00 0D"), (4, 0)),
    ] {
        assert_eq!(number(&mut area, &message), wanted);
    }
    assert_eq!(area, kept);
}

/// However late the fault: none of its settings is kept, and what follows finds what was there.
#[test]
fn what_is_refused_is_not_kept() {
    let mut area = after(&[&["CE 00 06 40 01 0F 1F"]]);
    let kept = area.clone();
    let (answer, reply) = take(&mut area, &request_of(&["CA 00 09 40 01 1F 00 41 00 00", NP_807]));
    assert_eq!(answer, Answer { number: 4, failed: 2, send: true, reboot: false, length: 10 });
    assert_eq!(reply[..10], bytes("02 02 00 06 08 00 09 04 02 00"));
    assert_eq!(plain_row_number(1, 0, &area, &[0; PLAIN_SCRATCH_ROOM]), 17);
    // 64 channels more are one too many; without the one that is held they are not.
    let many = format!("CE 00 64 40 40 {}", "0F 10 F1 ".repeat(32));
    assert_eq!(number(&mut area, &request_of(&[HOME, &many])), (2, 2));
    assert_eq!(area, kept);
    assert_eq!(number(&mut area, &request_of(&["CE 00 06 80 01 0F 1F", &many])), (0, 0));
}

/// 10, 11, 12, 13, 14, 1, 4: each message has all the faults behind its own.
#[test]
fn the_order() {
    let (mut area, mut none) = (started(), vec![1; AREA]);
    assert_eq!(plain_take(&[], &mut none, &mut [0; REPLY_ROOM - 1]).number, 10);
    assert_eq!(number(&mut none, &[]), (11, 0));
    assert_eq!(number(&mut area, &bytes("02 03 00 00 08 00")), (12, 0));
    assert_eq!(number(&mut area, &[0; 4_097]), (12, 0));
    for wrong in ["02 03 00 00 08 00 11", "02 02 00 02 08 00 11", "02 02 00 00 09 00 11"] {
        assert_eq!(number(&mut area, &bytes(wrong)), (13, 0));
    }
    for kind in ["11", "12", "13", "14", "16", "17"] {
        assert_eq!(number(&mut area, &bytes(&format!("02 02 00 00 08 00 {kind}"))), (14, 0));
    }
    for kind in ["10", "15"] {
        assert_eq!(number(&mut area, &bytes(&format!("02 02 00 00 08 00 {kind}"))), (1, 0));
    }
    for rest in ["07 08", "07 08 00", "00 08 01 CD 00 05 07 E4 C0", "07 08 01 CD 00 05 07 E4 C0 00"]
    {
        assert_eq!(number(&mut area, &bytes(&format!("02 02 00 00 08 {rest}"))), (4, 0));
    }
    assert_eq!(number(&mut area, &request_of(&[HOME, "C7 00"])), (3, 2));
    assert_eq!(area, started());
}

/// The rooms are a hand-held's: 32 lines, and 4,096 bytes for the texts of all tables.
#[test]
fn the_rooms_of_a_handheld() {
    let mut area = started();
    let line = |digit: usize| bytes(&format!("CA 00 08 40 01 {:02} FF 00 00", digit));
    let lines: Vec<_> = (0..33).map(line).collect();
    let all = |lines: &[Vec<u8>]| crate::reference::message::request(lines);
    assert_eq!(number(&mut area, &all(&lines)), (2, 33));
    assert_eq!(number(&mut area, &all(&lines[..32])), (0, 0));
    assert_eq!(number(&mut area, &all(&lines[32..])), (2, 1));
    let quick = |first: usize| {
        let entries: String = (first..first + 32)
            .map(|index| format!("{index:02X} {}00 00 ", "8B 66 ".repeat(23)))
            .collect();
        let length = 3 + 32 * 49;
        format!("CC {:02X} {:02X} 60 {entries}", length / 256, length % 256)
    };
    let status = |first: usize, count: usize, units: usize| {
        let entries: String = (first..first + count)
            .map(|code| format!("{code:02X} {}00 00 ", "8B 66 ".repeat(units)))
            .collect();
        let length = 4 + count * (2 * units + 3);
        format!("D0 {:02X} {:02X} 40 {count:02X} {entries}", length / 256, length % 256)
    };
    for taken in [quick(0), quick(32), status(32, 36, 16)] {
        assert_eq!(number(&mut area, &request_of(&[&taken])), (0, 0));
    }
    assert_eq!(number(&mut area, &request_of(&[&status(100, 1, 1)])), (2, 1));
    assert_eq!(number(&mut area, &request_of(&[&status(100, 1, 0)])), (0, 0));
    assert_eq!(number(&mut area, &request_of(&[&status(32, 1, 15), &status(100, 1, 1)])), (0, 0));
    assert_eq!(number(&mut area, &request_of(&[&status(101, 1, 1)])), (2, 1));
}
