//! What stands behind a row, by hand: each table, empty places, background groups, a fresh store and none.

use super::*;
use crate::reference::by_hand::{number_of, scratch, shown, stored, taken};
use crate::reference::limits::HANDHELD;
use crate::reference::screen::{Row, Shown};

/// Each table with a place or two in use, and flags of which no two neighbours have the same.
const FULL: [&str; 14] = [
    // PABX 2345 and PSTN 012345678901234567.
    "CA 00 09 6A 01 23 45 FF 00 00",
    "CA 00 12 5C 01 01 23 45 67 89 01 23 45 67 FF 00 42 00 00",
    // A response group at 3, and a background group at 15.
    "D1 00 0B 6A 43 10 00 01 00 41 00 00",
    "D1 00 09 55 CF FF FF FF 00 00",
    "D2 00 09 68 05 10 00 01 00 00",
    // Two member groups, a background group and a response group.
    "C8 00 11 74 80 02 10 00 02 00 00 10 00 03 00 41 00 00",
    "C8 00 0A 52 00 01 10 00 04 00 00",
    "C8 00 0A 61 C0 01 10 00 05 00 00",
    "C9 00 09 5C 01 10 00 02 00 00",
    "C9 00 0B 60 01 10 00 09 00 43 00 00",
    // PSTN 7 at 0 and PABX 110 at 15.
    "D3 00 07 40 00 7F 00 00",
    "D3 00 08 56 0F 11 0F 00 00",
    // Texts, behind which nothing stands.
    "CC 00 08 41 00 00 41 00 00",
    "D0 00 0C C0 02 20 00 41 00 00 21 00 00",
];

/// Those that have something behind their rows.
const TABLES: [u32; 6] =
    [LINES, GROUPS, INDIVIDUALS, GROUP_CONTACTS, INDIVIDUAL_CONTACTS, LINE_SLOTS];

fn group(
    address: u32,
    [attribute, broadcast, encryption, ovcm, emergency, priority]: [u8; 6],
) -> Entry {
    let flags = GroupFlags {
        attribute,
        broadcast: broadcast == 1,
        encryption: encryption == 1,
        ovcm: ovcm == 1,
        emergency: emergency == 1,
        priority,
    };
    Entry::Group { address: GroupAddress(address), flags }
}

fn individual(address: u32, [encryption, emergency, priority]: [u8; 3]) -> Entry {
    let flags =
        IndividualFlags { encryption: encryption == 1, emergency: emergency == 1, priority };
    Entry::Individual { address: IndividualAddress(address), flags }
}

fn line(pabx: bool, [encryption, emergency, priority]: [u8; 3]) -> Entry {
    let flags =
        LineFlags { encryption: encryption == 1, emergency: emergency == 1, priority, pabx };
    Entry::Line { flags }
}

/// What stands in a table and where, looked for also where no table has a place.
fn behind(table: u32, set: &Set) -> Vec<(u32, Entry)> {
    let there = |index| entry(table, index, true, set).ok().map(|entry| (index, entry));
    (0..300).filter_map(there).collect()
}

/// What is written for a line, and the number or how many, over a buffer that held 0xEE.
fn digits(table: u32, index: u32, is_store: bool, set: &Set, room: usize) -> (i32, Vec<u8>) {
    let mut buffer = vec![0xEE; room];
    let answer = entry_digits(table, index, is_store, set, &mut buffer);
    (answer.map_or_else(|number| -i32::from(number), |count| count as i32), buffer)
}

#[test]
fn each_table() {
    let set = taken(&FULL);
    assert_eq!(behind(LINES, &set), [(0, line(true, [1, 0, 2])), (1, line(false, [0, 1, 3]))]);
    assert_eq!(
        behind(GROUPS, &set),
        [(3, group(0x10_0001, [2, 1, 0, 1, 0, 1])), (15, group(0xFF_FFFF, [1, 0, 1, 0, 1, 3]))]
    );
    assert_eq!(behind(INDIVIDUALS, &set), [(5, individual(0x10_0001, [1, 0, 2]))]);
    assert_eq!(
        behind(GROUP_CONTACTS, &set),
        [
            (0, group(0x10_0002, [3, 0, 1, 0, 0, 2])),
            (1, group(0x10_0003, [3, 0, 1, 0, 0, 2])),
            (2, group(0x10_0004, [1, 0, 0, 1, 0, 0])),
            (3, group(0x10_0005, [2, 0, 0, 0, 1, 3])),
        ]
    );
    assert_eq!(
        behind(INDIVIDUAL_CONTACTS, &set),
        [(0, individual(0x10_0002, [0, 1, 3])), (1, individual(0x10_0009, [1, 0, 0]))]
    );
    assert_eq!(
        behind(LINE_SLOTS, &set),
        [(0, line(false, [0, 0, 0])), (15, line(true, [0, 1, 1]))]
    );
}

/// Rows of texts, tables that are none, and places that are one in their low byte or half.
#[test]
fn nothing_stands_there() {
    let set = taken(&FULL);
    for table in [0, 2, 3, 9, 10, 255, 0x101, 0x104, 0x108, 0x1_0001, 0x8000_0004, u32::MAX] {
        for index in [0, 1, 3, 5, 15, 32, 33] {
            assert_eq!(entry(table, index, true, &set), Err(17), "{table} {index}");
        }
    }
    for table in TABLES {
        for (index, _) in behind(table, &set) {
            for beyond in [0x100, 0x1_0000, 0x8000_0000] {
                assert_eq!(entry(table, index + beyond, true, &set), Err(17), "{table} {index}");
            }
        }
        assert_eq!(entry(table, u32::MAX, true, &set), Err(17), "{table}");
    }
}

/// The radio listens to it; the screen has no row for it.
#[test]
fn a_background_group_is_answered() {
    let set = taken(&FULL);
    for (row, table, index) in [(Row::Group(15), GROUPS, 15), (Row::GroupContact(2), 6, 2)] {
        assert_eq!(shown(&set, row), Shown::Nothing);
        assert!(entry(table, index, true, &set).is_ok());
    }
}

#[test]
fn digits_of_each_line() {
    let set = taken(&FULL);
    let long = [0, 1, 2, 3, 4, 5, 6, 7, 8, 9, 0, 1, 2, 3, 4, 5, 6, 7];
    for (table, index, wanted) in [
        (LINES, 0, &[2, 3, 4, 5][..]),
        (LINES, 1, &long),
        (LINE_SLOTS, 0, &[7]),
        (LINE_SLOTS, 15, &[1, 1, 0]),
    ] {
        for room in [18, 19, 300] {
            let (count, buffer) = digits(table, index, true, &set, room);
            assert_eq!(count as usize, wanted.len(), "{table} {index}");
            let (written, rest) = buffer.split_at(wanted.len());
            assert_eq!(written, wanted, "{table} {index}");
            assert!(rest.iter().all(|&byte| byte == 0xEE), "{table} {index} {room}");
        }
    }
}

/// The buffer comes first, then the store, then the place; no byte is written.
#[test]
fn no_digits() {
    let set = taken(&FULL);
    for (table, index) in [(LINES, 0), (LINE_SLOTS, 15), (LINES, 2), (GROUPS, 3), (9, 0)] {
        for (is_store, room, number) in
            [(true, 17, 15), (false, 17, 15), (true, 0, 15), (false, 0, 15), (false, 18, 11)]
        {
            let wanted = (-number, vec![0xEE; room]);
            assert_eq!(digits(table, index, is_store, &set, room), wanted, "{table} {index}");
        }
    }
    for (table, index) in [(1, 2), (1, 32), (8, 1), (8, 16), (1, 0x100), (8, 0x1_0000)] {
        assert_eq!(digits(table, index, true, &set, 18), (-17, vec![0xEE; 18]), "{table} {index}");
    }
    for table in [0, 2, 3, 4, 5, 6, 7, 9, 0x101, 0x108, u32::MAX] {
        for index in [0, 1, 3, 5, 15, 32] {
            assert_eq!(digits(table, index, true, &set, 40).0, -17, "{table} {index}");
        }
    }
}

/// Repeats are kept, and so is the order.
#[test]
fn channels_by_position() {
    let mut set = taken(&["CE 00 09 C0 03 0F 12 80 0F 1F"]);
    let all = |set: &Set| (0..).map_while(|at| channel(at, true, set).ok()).collect::<Vec<_>>();
    assert_eq!(all(&set), [241, 640, 241]);
    for position in [3, 63, 64, 0x100, 0x1_0000, 0x8000_0000, u32::MAX] {
        assert_eq!(channel(position, true, &set), Err(17), "{position}");
    }
    assert_eq!(number_of(&mut set, &["CE 00 06 80 01 0F 1F"]), (0, 0));
    assert_eq!((all(&set), channel(1, true, &set)), (vec![640], Err(17)));
}

/// A group's, an individual's and, with its group bit, the current place.
#[test]
fn each_emergency_key() {
    let key = |setting| emergency_key(true, &taken(&[setting])).expect("the key is always there");
    let flags = EmergencyKey::default();
    let group = Some(0x10_0001);
    assert_eq!(
        key("CB 00 06 60 10 00 01"),
        EmergencyKey { group: true, voice: true, address: group, ..flags }
    );
    assert_eq!(
        key("CB 00 06 18 FF FF FF"),
        EmergencyKey { status: true, siren: true, address: Some(0xFF_FFFF), ..flags }
    );
    assert_eq!(key("CB 00 03 C8"), EmergencyKey { group: true, siren: true, ..flags });
    assert_eq!(key("CB 00 03 80"), flags);
}

#[test]
fn numbers_and_code() {
    let set = taken(&["CD 00 05 07 E4 C0", "CF 00 05 12 38 A0"]);
    assert_eq!(home_numbers(true, &set), Ok(HomeNumbers { nzi: 15, np: 806 }));
    let code = SystemCode { lai: 0x123, la: 8, roaming: 2, par: true };
    assert_eq!(system_code(true, &set), Ok(code));
}

#[test]
fn a_fresh_store() {
    let set = Set::fresh(HANDHELD);
    for table in 0..=10 {
        assert!(behind(table, &set).is_empty(), "{table}");
        assert_eq!(digits(table, 0, true, &set, 18), (-17, vec![0xEE; 18]), "{table}");
    }
    assert!((0..300).all(|position| channel(position, true, &set) == Err(17)));
    let key =
        EmergencyKey { group: false, voice: false, status: false, siren: false, address: None };
    assert_eq!(emergency_key(true, &set), Ok(key));
    assert_eq!(home_numbers(true, &set), Ok(HomeNumbers { nzi: 0, np: 0 }));
    let code = SystemCode { lai: 0, la: 0, roaming: 0, par: false };
    assert_eq!(system_code(true, &set), Ok(code));
}

/// Whatever is asked for: it comes before what stands there.
#[test]
fn no_store() {
    for set in [Set::fresh(HANDHELD), taken(&FULL)] {
        for table in [0, 1, 2, 3, 4, 5, 6, 7, 8, 9, u32::MAX] {
            for index in [0, 3, 5, 15, 64, u32::MAX] {
                assert_eq!(entry(table, index, false, &set), Err(11), "{table} {index}");
            }
        }
        assert_eq!((channel(0, false, &set), channel(64, false, &set)), (Err(11), Err(11)));
        assert_eq!(emergency_key(false, &set), Err(11));
        assert_eq!(home_numbers(false, &set), Err(11));
        assert_eq!(system_code(false, &set), Err(11));
    }
}

/// A name and the address that came with it: what the officer presses is what the officer sees.
fn pressed(set: &Set, position: usize) -> (Shown, Result<u32, u8>) {
    let address = entry(INDIVIDUAL_CONTACTS, position as u32, true, set).map(|entry| match entry {
        Entry::Individual { address, .. } => address.0,
        other => panic!("{other:?} among the individual contacts"),
    });
    (shown(set, Row::IndividualContact(position)), address)
}

/// Two contacts of one setting; then one is renamed, the first goes, and both come back the other way round.
#[test]
fn names_and_addresses_stay_together() {
    let mut set = taken(&["C9 00 12 40 02 10 00 01 00 41 00 00 10 00 02 00 42 00 00"]);
    assert_eq!(pressed(&set, 0), (stored("A"), Ok(0x10_0001)));
    assert_eq!(pressed(&set, 1), (stored("B"), Ok(0x10_0002)));
    assert_eq!(number_of(&mut set, &["C9 00 0B 40 01 10 00 02 00 41 00 00"]), (0, 0));
    assert_eq!(pressed(&set, 1), (stored("A"), Ok(0x10_0002)));
    assert_eq!(number_of(&mut set, &["C9 00 09 80 01 10 00 01 00 00"]), (0, 0));
    assert_eq!(pressed(&set, 0), (stored("A"), Ok(0x10_0002)));
    assert_eq!(pressed(&set, 1), (Shown::Nothing, Err(17)));
    let replace = "C9 00 10 C0 02 10 00 02 00 00 10 00 01 00 41 00 00";
    assert_eq!(number_of(&mut set, &[replace]), (0, 0));
    assert_eq!(pressed(&set, 0), (scratch("32820201"), Ok(0x10_0002)));
    assert_eq!(pressed(&set, 1), (stored("A"), Ok(0x10_0001)));
}
