//! Reports, worked by hand: each type, fresh sets, unknown types, and the order of the refusals.

use super::*;
use crate::reference::by_hand::{
    bytes, parameters, report_of, reported, taken, EVERY_PARAMETER, EVERY_TABLE,
};
use crate::reference::limits::HANDHELD;
use crate::reference::queries::query;

/// The number, total and length, and the buffer, which held 0xEE.
fn asked_for(query: &[u8], index: u32, is_store: bool, set: &Set, room: usize) -> (u8, Vec<u8>) {
    let mut buffer = vec![0xEE; room];
    let number = report(query, index, is_store, set, &mut buffer).err().unwrap_or(0);
    (number, buffer)
}

/// Refused with this number, and no byte written.
fn assert_refused(number: u8, query: &[u8], index: u32, set: &Set) {
    let refused = asked_for(query, index, true, set, 4_096);
    assert_eq!(refused, (number, vec![0xEE; 4_096]), "{query:02X?} {index}");
}

fn two_channels() -> Set {
    taken(&["CE 00 07 C0 02 0F 12 80"])
}

#[test]
fn two_channels_are_reported() {
    let query = bytes("02 02 00 05 08 00 0A 01 CE");
    let mut buffer = [0xEE; 5_000];
    let told = report(&query, 1, true, &two_channels(), &mut buffer);
    assert_eq!(told, Ok(Reported { total: 1, length: 20 }));
    let wanted = bytes("02 02 00 10 08 07 0B 01 01 02 8E 00 0F 10 00 8E 00 28 00 01");
    assert_eq!(buffer[..20], wanted);
    assert!(buffer[20..].iter().all(|&byte| byte == 0xEE));
    for index in [0, 2, 255, 256, 257, 0x1_0001, 0x8000_0001, u32::MAX] {
        assert_refused(16, &query, index, &two_channels());
    }
}

/// The query's coding type does not matter, and is not the report's.
#[test]
fn the_coding_type_is_0111() {
    for coding in [0x00, 0x04, 0x07, 0xFF] {
        let query = [bytes("02 02 00 05 08"), vec![coding], bytes("0A 01 CE")].concat();
        let (number, buffer) = asked_for(&query, 1, true, &two_channels(), 4_096);
        assert_eq!((number, buffer[5]), (0, 0x07), "{coding:02X}");
    }
}

#[test]
fn each_type() {
    let set = taken(&EVERY_TABLE);
    for (asked, wanted) in EVERY_PARAMETER {
        assert_eq!(parameters(&set, &format!("{asked:02X}")), (1, bytes(wanted)), "{asked:02X}");
    }
    let (types, all): (Vec<u8>, Vec<&str>) = EVERY_PARAMETER.into_iter().unzip();
    assert_eq!(messages(&types, &set), Some(vec![report_of(10, &all.join(" "))]));
}

#[test]
fn a_fresh_set() {
    let fresh = Set::fresh(HANDHELD);
    for empty in ["C8", "C9", "CA", "CC", "CE", "D0", "C8 C9 CA CC CE D0"] {
        assert_eq!(reported(&fresh, empty), bytes("02 02 00 06 08 07 0B 01 01 00"), "{empty}");
    }
    assert_eq!(parameters(&fresh, "FF CB"), (2, bytes("BF 00 8B 00 40 00 00 00")));
    assert_eq!(parameters(&fresh, "CD CF"), (2, bytes("8D 00 00 00 00 8F 00 00 00 00")));
}

/// The types of D1 to D3 and of reports are unknown too; what is asked behind one is not answered.
#[test]
fn unknown_types() {
    let fresh = Set::fresh(HANDHELD);
    for unknown in ["D1", "D2", "D3", "88", "8C", "90", "9E", "BF", "00", "C7", "D4", "FE"] {
        let wanted = bytes(&format!("{unknown} 83"));
        assert_eq!(parameters(&fresh, unknown), (1, wanted.clone()), "{unknown}");
        assert_eq!(parameters(&fresh, &format!("{unknown} CD D1")), (1, wanted), "{unknown}");
    }
    assert_eq!(parameters(&fresh, "CD 00 CF"), (2, bytes("8D 00 00 00 00 00 83")));
    assert_eq!(parameters(&fresh, "CE 00"), (1, bytes("00 83")));
}

/// Ten bytes ask, and no other.
#[test]
fn every_byte() {
    let set = taken(&EVERY_TABLE);
    for byte in 0..=255 {
        let wanted = EVERY_PARAMETER.into_iter().find(|(asked, _)| *asked == byte);
        let wanted = wanted.map_or(vec![byte, 0x83], |(_, parameter)| bytes(parameter));
        assert_eq!(parameters(&set, &format!("{byte:02X}")), (1, wanted), "{byte:02X}");
    }
}

#[test]
fn in_the_order_asked() {
    let set = taken(&EVERY_TABLE);
    assert_eq!(parameters(&set, "CE CD"), (2, bytes("8E 00 0F 10 00 8D 00 00 E4 C0")));
    assert_eq!(parameters(&set, "CD CE CD").0, 3);
    assert_eq!(parameters(&set, "CE CE"), (2, bytes("8E 00 0F 10 00 8E 00 0F 10 00")));
}

#[test]
fn lines_and_keys() {
    let line = |setting| parameters(&taken(&[setting]), "CA");
    // PABX without a text; PSTN 7 with encryption, emergency and priority 3; PABX with priority 1.
    assert_eq!(line("CA 00 09 42 01 23 45 FF 00 00"), (1, bytes("8A 00 80 00 23 45 FF 00 00")));
    assert_eq!(line("CA 00 07 7C 01 7F 00 00"), (1, bytes("8A 00 78 00 7F 00 00")));
    assert_eq!(line("CA 00 07 46 01 7F 00 00"), (1, bytes("8A 00 88 00 7F 00 00")));
    let key = |setting| parameters(&taken(&[setting]), "CB");
    // An individual with status; the current place, where the group bit is kept.
    assert_eq!(key("CB 00 06 10 FF FF FF"), (1, bytes("8B 00 10 FF FF FF")));
    assert_eq!(key("CB 00 03 C0"), (1, bytes("8B 00 C0 00 00 00")));
    assert_eq!(key("CB 00 03 B8"), (1, bytes("8B 00 78 00 00 00")));
}

#[test]
fn group_flags() {
    let group = |flags: &str| {
        let setting = format!("C8 00 0A {flags} 01 10 00 01 00 00");
        parameters(&taken(&[&setting]), "C8").1[5..7].to_vec()
    };
    // Attribute 11; broadcast, OVCM and priority 1; emergency and priority 2, with attribute 10.
    assert_eq!(group("70 00"), [0x0C, 0x00]);
    assert_eq!(group("5A 40"), [0x06, 0x90]);
    assert_eq!(group("61 80"), [0x08, 0x60]);
    assert_eq!(group("7F C0"), [0x0F, 0xF0]);
}

/// By index and by code, whatever the order of adding; a status text's index is its rank.
#[test]
fn texts_in_their_order() {
    let set = taken(&[
        "CC 00 0D 42 3F 00 42 00 00 05 00 41 00 00",
        "D0 00 0C 40 02 28 00 00 21 00 42 00 00",
    ]);
    let quick = bytes("8C 00 14 00 41 00 00 8C 00 FC 00 42 00 00");
    assert_eq!(parameters(&set, "CC"), (2, quick));
    let status = bytes("90 00 21 00 00 42 00 00 90 00 28 01 00 00");
    assert_eq!(parameters(&set, "D0"), (2, status));
}

/// The seventeenth contact has index 0 again, a channel its position.
#[test]
fn indexes() {
    let mut set = taken(&[EVERY_TABLE[1], EVERY_TABLE[2]]);
    let (contact, line) = (set.tables.individual_contacts[0].clone(), set.tables.lines[0].clone());
    set.tables.individual_contacts = vec![contact; 18];
    set.tables.lines = vec![line; 18];
    set.tables.channels = vec![241; 18];
    let indexes = |types, size: usize, place: usize| -> Vec<u8> {
        parameters(&set, types).1.chunks(size).map(|parameter| parameter[place]).collect()
    };
    let four_bits = [0, 1, 2, 3, 4, 5, 6, 7, 8, 9, 10, 11, 12, 13, 14, 15, 0, 1];
    let contacts: Vec<u8> = four_bits.iter().map(|index| index << 4 | 7).collect();
    assert_eq!(indexes("C9", 8, 5), contacts);
    assert_eq!(indexes("CA", 11, 3), four_bits);
    assert_eq!(indexes("CE", 5, 4), (0..18).collect::<Vec<u8>>());
}

#[test]
fn kept_hashes() {
    let hash = |setting| parameters(&taken(&[setting]), "FF");
    assert_eq!(hash("FF 00 07 01 01 02 03 04"), (1, bytes("BF 01 01 01 02 03 04")));
    assert_eq!(
        hash("FF 00 0D C2 01 02 03 04 05 06 07 08 09 0A"),
        (1, bytes("BF 01 02 01 02 03 04 05 06 07 08 09 0A"))
    );
    assert_eq!(hash("FF 00 03 C0"), (1, bytes("BF 00")));
}

/// The least and the most bytes of each, as the page counts them.
#[test]
fn sizes() {
    let sizes = |text: usize, quick: usize, digits: usize| {
        let mut set = taken(&EVERY_TABLE);
        let tables = &mut set.tables;
        tables.group_contacts[0].text = vec![0xFFFF; text];
        tables.individual_contacts[0].text = vec![0xFFFF; text];
        tables.lines[0].text = vec![0xFFFF; text];
        tables.lines[0].digits = vec![9; digits];
        tables.quick_texts[5] = Some(vec![0xFFFF; quick]);
        tables.status_texts[1] = Some(vec![0xFFFF; text]);
        EVERY_PARAMETER.map(|(asked, _)| parameters(&set, &format!("{asked:02X}")).1.len())
    };
    assert_eq!(sizes(0, 1, 1), [9, 8, 7, 6, 7, 5, 5, 5, 6, 7]);
    assert_eq!(sizes(16, 23, 18), [41, 40, 48, 6, 51, 5, 5, 5, 38, 7]);
}

#[test]
fn refusals() {
    let set = two_channels();
    for data in ["0A", "0A 00", "0A 01", "0A 01 CE CE"] {
        let data = bytes(data);
        let query = [vec![2, 2, 0, data.len() as u8 + 2, 8, 0], data].concat();
        for index in [0, 1, 2] {
            assert_refused(4, &query, index, &set);
        }
    }
    assert_refused(1, &bytes("02 02 00 05 08 00 12 01 CE"), 1, &set);
    assert_refused(14, &bytes("02 02 00 05 08 07 08 01 CE"), 1, &set);
    assert_refused(13, &bytes("03 02 00 05 08 00 0A 01 CE"), 1, &set);
    assert_refused(12, &bytes("02 02 00 02 08 00"), 1, &set);
}

/// Each is wrong together with all that come behind it.
#[test]
fn the_order_of_the_refusals() {
    let set = two_channels();
    let good = query(&[0xCE]);
    for query in [&good, &bytes("03 02 00 05 08 00 13"), &Vec::new()] {
        for (is_store, room, number) in [(true, 4_095, 15), (false, 0, 15), (false, 4_096, 11)] {
            let refused = asked_for(query, 0, is_store, &set, room);
            assert_eq!(refused, (number, vec![0xEE; room]));
        }
    }
    for (query, number) in [
        ("03 02 00 02 08 00", 12),
        ("03 02 00 03 08 00 13", 13),
        ("02 02 00 03 08 00 13", 14),
        ("02 02 00 03 08 00 12", 1),
        ("02 02 00 03 08 00 0A", 4),
        ("02 02 00 05 08 00 0A 01 CE", 16),
    ] {
        assert_refused(number, &bytes(query), 0, &set);
    }
}
