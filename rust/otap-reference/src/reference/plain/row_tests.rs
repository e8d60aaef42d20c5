//! Request A12 by hand: what each row shows.

use super::by_hand::*;
use super::*;
use crate::reference::by_hand::request_of;

/// What a call shows in a scratch of EE; both calls must judge alike, and what is not shown of the scratch must stay.
fn shown(area: &[u8], table: u32, place: u32) -> (u8, PlainShown, Vec<u8>) {
    let mut scratch = [0xEE; PLAIN_SCRATCH_ROOM + 3];
    let number = plain_row_number(table, place, area, &scratch);
    let part = plain_row_part(table, place, area, &mut scratch);
    let bytes = part.bytes(&scratch).to_vec();
    assert!(scratch[bytes.len()..].iter().all(|&byte| byte == 0xEE));
    assert_eq!(number == 0, part != PlainShown::Nothing);
    (number, part, bytes)
}

fn units(text: &str) -> Vec<u8> {
    text.encode_utf16().flat_map(u16::to_be_bytes).collect()
}

/// A text or a number, at the start of the scratch.
fn shows(area: &[u8], table: u32, place: u32, text: &str) {
    let wanted = (0, PlainShown::Scratch(units(text).len()), units(text));
    assert_eq!(shown(area, table, place), wanted, "{table} {place}");
}

fn absent(area: &[u8], table: u32, place: u32) {
    let wanted = (17, PlainShown::Nothing, Vec::new());
    assert_eq!(shown(area, table, place), wanted, "{table} {place}");
}

/// By table: a setting under 0111 with the text AB, and its place.
const TEXTS: [(&str, u32, u32); 8] = [
    ("CA 00 0D 42 01 23 45 FF 00 41 00 42 00 00", 1, 0),
    ("CC 00 0A 41 05 00 41 00 42 00 00", 2, 5),
    ("D0 00 0B 40 01 21 00 41 00 42 00 00", 3, 33),
    ("D1 00 0D 60 0F 10 00 01 00 41 00 42 00 00", 4, 15),
    ("D2 00 0D 40 0F 10 00 01 00 41 00 42 00 00", 5, 15),
    ("C8 00 0E 60 00 01 10 00 01 00 41 00 42 00 00", 6, 0),
    ("C9 00 0D 40 01 10 00 01 00 41 00 42 00 00", 7, 0),
    ("D3 00 0B 40 0F 7F 00 41 00 42 00 00", 8, 15),
];

/// The same under 0100.
const EIGHT_BIT: [(&str, u32, u32); 8] = [
    ("CA 00 0A 42 01 23 45 FF 41 FE 00", 1, 0),
    ("CC 00 07 41 05 41 FE 00", 2, 5),
    ("D0 00 08 40 01 21 41 FE 00", 3, 33),
    ("D1 00 0A 60 0F 10 00 01 41 FE 00", 4, 15),
    ("D2 00 0A 40 0F 10 00 01 41 FE 00", 5, 15),
    ("C8 00 0B 60 00 01 10 00 01 41 FE 00", 6, 0),
    ("C9 00 0A 40 01 10 00 01 41 FE 00", 7, 0),
    ("D3 00 08 40 0F 7F 41 FE 00", 8, 15),
];

/// In the first request, and behind other settings and other requests.
#[test]
fn texts_of_16_bits() {
    let fresh = started();
    for (setting, table, place) in TEXTS {
        absent(&fresh, table, place);
        shows(&after(&[&[setting]]), table, place, "AB");
        let later = after(&[&["CB 00 03 80"], &["CD 00 05 07 E4 C0", setting, "FF 00 03 00"]]);
        shows(&later, table, place, "AB");
    }
    let mut area = after(&[&TEXTS.map(|(setting, ..)| setting)]);
    for (_, table, place) in TEXTS {
        shows(&area, table, place, "AB");
    }
    // Of a text that is sent again, the last is shown; of a quick text the first.
    let others = TEXTS.map(|(setting, ..)| setting.replace("00 41", "8B 66"));
    assert_eq!(number(&mut area, &request_of(&others.each_ref().map(|one| &one[..]))), (0, 0));
    for (_, table, place) in TEXTS {
        shows(&area, table, place, if table == 2 { "AB" } else { "\u{8B66}B" });
    }
}

#[test]
fn texts_of_eight_bits() {
    for (setting, table, place) in EIGHT_BIT {
        let mut area = started();
        assert_eq!(number(&mut area, &eight_bit(&[setting])), (0, 0), "{setting}");
        shows(&area, table, place, "A\u{FE}");
    }
    let mut area = started();
    assert_eq!(number(&mut area, &eight_bit(&EIGHT_BIT.map(|(setting, ..)| setting))), (0, 0));
    for (_, table, place) in EIGHT_BIT {
        shows(&area, table, place, "A\u{FE}");
    }
    // The longest takes 46 bytes; and one coding type after the other.
    let longest = format!("CC 00 1C 41 06 {}00", "7A ".repeat(23));
    assert_eq!(number(&mut area, &eight_bit(&[&longest])), (0, 0));
    shows(&area, 2, 6, &"z".repeat(23));
    assert_eq!(number(&mut area, &request_of(&[TEXTS[2].0])), (0, 0));
    shows(&area, 3, 33, "AB");
    assert_eq!(number(&mut area, &eight_bit(&[EIGHT_BIT[2].0])), (0, 0));
    shows(&area, 3, 33, "A\u{FE}");
}

/// Of several entries each has its own text, with numbers of odd and even length before them.
#[test]
fn entries_of_one_setting() {
    let lines = "CA 00 15 40 03 12 3F 00 41 00 42 00 00 12 FF 00 00 1F 00 43 00 00";
    let area = after(&[&[lines]]);
    shows(&area, 1, 0, "AB");
    shows(&area, 1, 1, "12");
    shows(&area, 1, 2, "C");
    absent(&area, 1, 3);
    let mut area = started();
    let lines = "CA 00 0F 40 03 12 3F 41 42 00 12 FF 00 1F 43 00";
    assert_eq!(number(&mut area, &eight_bit(&[lines])), (0, 0));
    shows(&area, 1, 0, "AB");
    shows(&area, 1, 1, "12");
    shows(&area, 1, 2, "C");
}

/// Digits, dialled numbers by kind, and addresses outside the plan; those of eight-bit requests too.
#[test]
fn numbers() {
    let sent = [
        ("CA 00 10 42 01 12 34 56 78 90 12 34 56 78 FF 00 00", 1, 0, "123456789012345678"),
        ("D1 00 09 60 00 10 00 01 00 00", 4, 0, "32820900"),
        ("D2 00 09 40 00 10 00 01 00 00", 5, 0, "32820200"),
        ("D1 00 09 60 01 FF 7D C8 00 00", 4, 1, "FF7DC8"),
        ("D2 00 09 40 01 FF 7D C8 00 00", 5, 1, "80689549"),
        ("C8 00 0A 60 00 01 10 00 01 00 00", 6, 0, "32820900"),
        ("C9 00 09 40 01 10 00 01 00 00", 7, 0, "32820200"),
        ("D3 00 07 40 03 0F 00 00", 8, 3, "0"),
    ];
    let mut area = after(&[&sent.map(|(setting, ..)| setting)]);
    for (_, table, place, number) in sent {
        shows(&area, table, place, number);
    }
    assert_eq!(number(&mut area, &eight_bit(&["D2 00 08 40 00 10 00 02 00"])), (0, 0));
    shows(&area, 5, 0, "32820201");
}

/// An empty status text is an empty part of the scratch, whatever it came in.
#[test]
fn empty_status_texts() {
    let mut area = after(&[&["D0 00 07 40 01 21 00 00"]]);
    shows(&area, 3, 33, "");
    assert_eq!(number(&mut area, &eight_bit(&["D0 00 06 40 01 7F 00"])), (0, 0));
    shows(&area, 3, 127, "");
}

/// Attribute 01, in a slot or among the contacts; the rows behind it stay where they are.
#[test]
fn background_groups() {
    let slots = ["D1 00 0B 50 00 10 00 01 00 41 00 00", "D1 00 0B 60 01 10 00 01 00 41 00 00"];
    let contacts =
        ["C8 00 0C 50 00 01 10 00 01 00 41 00 00", "C8 00 0C 70 00 01 10 00 02 00 42 00 00"];
    let mut area = after(&[&[slots[0], slots[1], contacts[0], contacts[1]]]);
    absent(&area, 4, 0);
    absent(&area, 6, 0);
    assert_eq!(shown(&area, 4, 1).2, units("A"));
    assert_eq!(shown(&area, 6, 1).2, units("B"));
    // A group may become one, and be none again.
    let other = ["C8 00 0A 50 00 01 10 00 02 00 00", "C8 00 0C 60 00 01 10 00 01 00 43 00 00"];
    assert_eq!(number(&mut area, &request_of(&other)), (0, 0));
    absent(&area, 6, 1);
    assert_eq!(shown(&area, 6, 0).2, units("C"));
}

/// The lines 1, 2 and PABX 1 without a text.
const THREE_LINES: [&str; 2] = ["CA 00 0A 40 02 1F 00 00 2F 00 00", "CA 00 07 42 01 1F 00 00"];

#[test]
fn lines_come_and_go() {
    let named = "CA 00 09 40 01 1F 00 41 00 00";
    // Overwritten in its place, with its new text, or added again behind the others.
    let area = after(&[&THREE_LINES, &[named]]);
    assert_eq!(shown(&area, 1, 0).2, units("A"));
    shows(&area, 1, 1, "2");
    shows(&area, 1, 2, "1");
    let mut area = after(&[&THREE_LINES, &["CA 00 07 80 01 1F 00 00"]]);
    shows(&area, 1, 0, "2");
    shows(&area, 1, 1, "1");
    absent(&area, 1, 2);
    assert_eq!(number(&mut area, &request_of(&[named])), (0, 0));
    shows(&area, 1, 0, "2");
    shows(&area, 1, 1, "1");
    assert_eq!(shown(&area, 1, 2).2, units("A"));
    // What isn't there is deleted without effect; a replace leaves its own alone.
    assert_eq!(number(&mut area, &request_of(&["CA 00 07 80 01 3F 00 00"])), (0, 0));
    assert_eq!(shown(&area, 1, 2).2, units("A"));
    assert_eq!(number(&mut area, &request_of(&["CA 00 07 C2 01 2F 00 00"])), (0, 0));
    shows(&area, 1, 0, "2");
    absent(&area, 1, 1);
    assert_eq!(number(&mut area, &request_of(&["CA 00 04 C0 00"])), (0, 0));
    absent(&area, 1, 0);
}

/// The first of two stays, in one setting too; after a delete or a replace another may come.
#[test]
fn quick_texts_stay() {
    let (a, b) = ("CC 00 08 41 05 00 41 00 00", "CC 00 08 41 05 00 42 00 00");
    let mut area = after(&[&[a], &[b]]);
    assert_eq!(shown(&area, 2, 5).2, units("A"));
    assert_eq!(number(&mut area, &request_of(&["CC 00 06 81 05 00 00", b])), (0, 0));
    assert_eq!(shown(&area, 2, 5).2, units("B"));
    let both = "CC 00 0D C2 05 00 43 00 00 05 00 44 00 00";
    assert_eq!(number(&mut area, &request_of(&[both])), (0, 0));
    assert_eq!(shown(&area, 2, 5).2, units("C"));
    let status = "D0 00 0E 40 02 21 00 43 00 00 21 00 44 00 00";
    assert_eq!(number(&mut area, &request_of(&[status])), (0, 0));
    assert_eq!(shown(&area, 3, 33).2, units("D"));
}

/// 15, 11, 17: a scratch of 64 bytes, whatever the row; then the area; then the row.
#[test]
fn the_order() {
    let (area, none) = (after(&[&[TEXTS[0].0]]), vec![1; AREA]);
    for room in [0, 1, 36, 63] {
        let mut scratch = vec![0xEE; room];
        for (table, area) in [(1, &area), (9, &area), (1, &none), (9, &none)] {
            assert_eq!(plain_row_number(table, 0, area, &scratch), 15);
            assert_eq!(plain_row_part(table, 0, area, &mut scratch), PlainShown::Nothing);
        }
        assert!(scratch.iter().all(|&byte| byte == 0xEE));
    }
    let scratch = [0; PLAIN_SCRATCH_ROOM];
    assert_eq!([1, 9].map(|table| plain_row_number(table, 0, &none, &scratch)), [11, 11]);
    assert_eq!([1, 9].map(|table| plain_row_number(table, 0, &area, &scratch)), [0, 17]);
}

/// Tables that are none, and places that no table has.
#[test]
fn no_rows() {
    let area = after(&[&TEXTS.map(|(setting, ..)| setting)]);
    for table in [0, 9, 0x101, 0x1_0001, u32::MAX] {
        absent(&area, table, 0);
    }
    for (_, table, place) in TEXTS {
        for other in [place + 1, place + 0x100, place + 0x1_0000, u32::MAX] {
            absent(&area, table, other);
        }
    }
}
