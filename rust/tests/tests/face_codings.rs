//! Texts under coding types 0100 and 0111: the archive behind the face against the reference, and by hand.

use otap::{Outcome, Slice, Table, REPLY_ROOM, SCRATCH_ROOM};
use otap_reference::inputs::Inputs;
use otap_reference::reference::message::request_as;
use otap_reference::reference::settings::Operation::{self, Add, Delete, Replace};
use otap_reference::reference::settings::{Setting, TextEntry};
use otap_reference::reference::texts::Coding;
use otap_tests::bytes;
use otap_tests::for_both_sets;
use otap_tests::pair::Pair;
use otap_tests::sets::Tried;

for_both_sets!(
    one_name_both_ways,
    lengths_of_a_slot,
    quick_texts_of_both,
    other_settings_under_0100,
    contacts_under_0100,
    lengths_of_a_line_slot,
    coding_types,
    messages_under_the_other_coding_type,
);

/// Group slot 0: address 100001 hex, name A1.
const NARROW: &str = "02 02 00 0F 08 04 08 01 D1 00 0A 60 00 10 00 01 41 31 00";
const WIDE: &str = "02 02 00 12 08 07 08 01 D1 00 0D 60 00 10 00 01 00 41 00 31 00 00";

/// Outcome and failed ID of a message to a fresh store; the reference says the same.
fn outcome<K: Tried>(message: &[u8]) -> (Outcome, u8) {
    let mut pair = Pair::<K>::fresh();
    let mut reply = [0; REPLY_ROOM];
    let answer = pair.store().judge(message, &mut reply);
    pair.commit(message);
    (answer.outcome, answer.failed_id)
}

/// The same of a request under 0100 with one setting in hex.
fn narrow<K: Tried>(setting: &str) -> (Outcome, u8) {
    outcome::<K>(&request_as(Coding::Eight, &[bytes(setting)]))
}

const TAKEN: (Outcome, u8) = (Outcome::Taken, 0);
const FIRST_BAD: (Outcome, u8) = (Outcome::BadField, 1);
const NONE_READ: (Outcome, u8) = (Outcome::BadField, 0);

/// What a row shows, and of which slice, after a message that is taken.
fn shown<K: Tried>(message: &[u8], table: Table, row: u32) -> (Slice, Vec<u8>) {
    let mut pair = Pair::<K>::fresh();
    assert_eq!(pair.commit(message), 0);
    let mut scratch = [0; SCRATCH_ROOM];
    let store = pair.store();
    let row = store.row(table, row, &mut scratch).expect("the row is there");
    (row.slice(), row.bytes().to_vec())
}

fn one_name_both_ways<K: Tried>() {
    for message in [NARROW, WIDE] {
        let row = shown::<K>(&bytes(message), Table::Groups, 0);
        assert_eq!(row, (Slice::Store, bytes("00 41 00 31")));
    }
    let (mut one, mut two) = (Pair::<K>::fresh(), Pair::<K>::fresh());
    assert_eq!((one.commit(&bytes(NARROW)), two.commit(&bytes(WIDE))), (0, 0));
    assert!(one.bytes == two.bytes, "the same names leave the same store");
    one.compare_exports();
    assert_eq!(one.compare_rows(), 1);
}

fn lengths_of_a_slot<K: Tried>() {
    for kind in ["D1", "D2"] {
        let of = |length: u8, units: usize| {
            let text = " FF".repeat(units);
            narrow::<K>(&format!("{kind} 00 {length:02X} 60 00 10 00 01{text} 00"))
        };
        assert_eq!(of(8, 0), TAKEN);
        assert_eq!(of(24, 16), TAKEN);
        assert_eq!(of(25, 17), FIRST_BAD);
        assert_eq!(of(9, 0), FIRST_BAD);
        assert_eq!(of(41, 33), FIRST_BAD);
        assert_eq!(narrow::<K>(&format!("{kind} 00 09 60 00 10 00 01 00 00")), FIRST_BAD);
        assert_eq!(narrow::<K>(&format!("{kind} 00 09 60 00 10 00 01 41 31")), FIRST_BAD);
        assert_eq!(narrow::<K>(&format!("{kind} 00 08 80 00 00 00 00 00")), TAKEN);
    }
    let nameless = request_as(Coding::Eight, &[bytes("D1 00 08 60 00 10 00 01 00")]);
    let digits = b"32820900".iter().flat_map(|&digit| [0, digit]).collect();
    assert_eq!(shown::<K>(&nameless, Table::Groups, 0), (Slice::Scratch, digits));
}

fn quick<K: Tried>(operation: Operation, units: usize, coding: Coding) -> (Outcome, u8) {
    let entries = vec![TextEntry { key: 63, text: vec![0xE9; units] }];
    let setting = Setting::QuickTexts { operation, entries };
    outcome::<K>(&request_as(coding, &[setting.write_as(coding).expect("E9 is below 256")]))
}

fn quick_texts_of_both<K: Tried>() {
    for coding in Coding::ALL {
        for operation in [Add, Delete, Replace] {
            let empty = if operation == Delete { TAKEN } else { FIRST_BAD };
            assert_eq!(quick::<K>(operation, 0, coding), empty);
            assert_eq!(quick::<K>(operation, 23, coding), TAKEN);
            assert_eq!(quick::<K>(operation, 24, coding), FIRST_BAD);
        }
    }
}

fn other_settings_under_0100<K: Tried>() {
    let status = request_as(Coding::Eight, &[bytes("D0 00 07 40 01 20 FF 00")]);
    assert_eq!(shown::<K>(&status, Table::StatusTexts, 32), (Slice::Store, vec![0x00, 0xFF]));
    let line = request_as(Coding::Eight, &[bytes("CA 00 0A 42 01 23 45 FF 41 31 00")]);
    assert_eq!(shown::<K>(&line, Table::Lines, 0), (Slice::Store, bytes("00 41 00 31")));
    assert_eq!(narrow::<K>("CE 00 07 C0 02 0F 12 80"), TAKEN);
    assert_eq!(narrow::<K>("D4 00 03 00"), (Outcome::UnknownType, 1));
}

/// Both lists of contacts under 0100: each text ends with one byte, and its units are the store's.
fn contacts_under_0100<K: Tried>() {
    let groups = "C8 00 10 60 00 02 10 00 01 41 31 00 10 00 02 FF 00";
    let individuals = "C9 00 0D 40 02 10 00 01 00 10 00 02 E9 00";
    let message = request_as(Coding::Eight, &[bytes(groups), bytes(individuals)]);
    assert_eq!(shown::<K>(&message, Table::GroupContacts, 0), (Slice::Store, bytes("00 41 00 31")));
    assert_eq!(shown::<K>(&message, Table::GroupContacts, 1), (Slice::Store, bytes("00 FF")));
    let digits = b"32820200".iter().flat_map(|&digit| [0, digit]).collect();
    assert_eq!(shown::<K>(&message, Table::IndividualContacts, 0), (Slice::Scratch, digits));
    assert_eq!(shown::<K>(&message, Table::IndividualContacts, 1), (Slice::Store, bytes("00 E9")));
    for (units, wanted) in [(0, TAKEN), (16, TAKEN), (17, FIRST_BAD)] {
        let text = " FF".repeat(units);
        let [groups, individuals] = [9 + units, 8 + units];
        assert_eq!(narrow::<K>(&format!("C8 00 {groups:02X} 60 00 01 10 00 01{text} 00")), wanted);
        assert_eq!(
            narrow::<K>(&format!("C9 00 {individuals:02X} 40 01 10 00 01{text} 00")),
            wanted
        );
    }
    assert_eq!([narrow::<K>("C8 00 05 D0 00 00"), narrow::<K>("C9 00 04 C0 00")], [TAKEN; 2]);
    assert_eq!(narrow::<K>("C8 00 0A 60 00 01 10 00 01 00 00"), FIRST_BAD);
}

/// The least is 6 and the most 31 under 0100, 7 and 48 under 0111.
fn lengths_of_a_line_slot<K: Tried>() {
    let of = |coding: Coding, units: usize| {
        let (unit, end) =
            if coding == Coding::Eight { (" FF", " 00") } else { (" 00 FF", " 00 00") };
        let text = unit.repeat(units) + end;
        let length = 4 + 10 + text.len() / 3;
        let digits = "12 34 56 78 90 12 34 56 78 FF";
        outcome::<K>(&request_as(
            coding,
            &[bytes(&format!("D3 00 {length:02X} 42 0F {digits}{text}"))],
        ))
    };
    for coding in Coding::ALL {
        assert_eq!([of(coding, 0), of(coding, 16), of(coding, 17)], [TAKEN, TAKEN, FIRST_BAD]);
    }
    assert_eq!(narrow::<K>("D3 00 06 40 00 1F 00"), TAKEN);
    assert_eq!(narrow::<K>("D3 00 07 40 00 1F 00 00"), FIRST_BAD);
    assert_eq!(narrow::<K>("D3 00 06 80 00 0F 00"), TAKEN);
    assert_eq!(narrow::<K>("D3 00 06 80 00 FF 00"), FIRST_BAD);
    let named = request_as(Coding::Eight, &[bytes("D3 00 08 40 03 1F 41 31 00")]);
    assert_eq!(shown::<K>(&named, Table::LineSlots, 3), (Slice::Store, bytes("00 41 00 31")));
}

/// Every value of the carrier's byte, reserved bits too.
fn coding_types<K: Tried>() {
    for coding in 0..=255 {
        let (mut narrow, mut wide) = (bytes(NARROW), bytes(WIDE));
        narrow[5] = coding;
        wide[5] = coding;
        let expected = match coding & 0x0F {
            0b0100 => [TAKEN, FIRST_BAD],
            0b0111 => [FIRST_BAD, TAKEN],
            _ => [NONE_READ, NONE_READ],
        };
        assert_eq!([outcome::<K>(&narrow), outcome::<K>(&wide)], expected, "{coding:08b}");
    }
}

/// Messages as they come, and each with the coding type of the other: the texts are then misread.
fn messages_under_the_other_coding_type<K: Tried>() {
    let mut misread = 0;
    for seed in 7_000..7_060 {
        let mut inputs = Inputs::new(seed, K::LIMITS);
        let mut pair = Pair::<K>::fresh();
        for _ in 0..60 {
            let message = inputs.message();
            let number = pair.commit(&message);
            if (7..=K::LONGEST_MESSAGE).contains(&message.len()) {
                let mut other = message.clone();
                other[5] ^= 0b0011;
                misread += usize::from(pair.commit(&other) == 4 && number == 0);
            }
        }
        pair.compare_exports();
    }
    assert!(misread > 300, "{misread} taken under one coding type only");
}
