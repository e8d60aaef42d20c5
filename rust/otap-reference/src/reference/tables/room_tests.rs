//! Request A11 by hand: texts that share one room, and when a setting has none.

mod restored;

use super::*;
use crate::layout;
use crate::reference::by_hand::{bytes, number, shown};
use crate::reference::limits::{HANDHELD, VEHICLE};
use crate::reference::message::{request, request_as};
use crate::reference::plan::{GroupAddress, IndividualAddress};
use crate::reference::screen::{Row, Shown};
use crate::reference::settings::{ContactEntry, GroupFlags, IndividualFlags, LineFlags};
use crate::reference::texts::Coding;
use Operation::{Add, Delete, Replace};

/// A text of so many units.
fn text(units: usize) -> Text {
    vec![0x8B66; units]
}

fn entries(of: &[(u8, usize)]) -> Vec<TextEntry> {
    of.iter().map(|&(key, units)| TextEntry { key, text: text(units) }).collect()
}

/// Each an index and how many units.
fn quick(operation: Operation, of: &[(u8, usize)]) -> Setting {
    Setting::QuickTexts { operation, entries: entries(of) }
}

/// Each a code and how many units.
fn status(operation: Operation, of: &[(u8, usize)]) -> Setting {
    Setting::StatusTexts { operation, entries: entries(of) }
}

/// PSTN lines, each a number of two digits and how many units.
fn lines(operation: Operation, of: &[(u8, usize)]) -> Setting {
    let entry = |&(number, units): &(u8, usize)| LineEntry {
        digits: vec![number / 10, number % 10],
        text: text(units),
    };
    let entries = of.iter().map(entry).collect();
    Setting::Lines { operation, flags: LineFlags::default(), entries }
}

fn line_slot(index: u8, units: usize) -> Setting {
    let line = Line { digits: vec![7], flags: LineFlags::default(), text: text(units) };
    Setting::LineSlot { index, slot: Some(line) }
}

/// Background groups, which have no row.
const BACKGROUND: GroupFlags = GroupFlags {
    attribute: 1,
    broadcast: false,
    encryption: false,
    ovcm: false,
    emergency: false,
    priority: 0,
};

fn group(index: u8, units: usize) -> Setting {
    let slot = Some(BACKGROUND.of(GroupAddress(0x10_0001), text(units)));
    Setting::Group { index, slot }
}

fn individual(index: u8, units: usize) -> Setting {
    let slot = Some(IndividualFlags::default().of(IndividualAddress(0x10_0001), text(units)));
    Setting::Individual { index, slot }
}

fn group_contact(units: usize) -> Setting {
    let entries = vec![ContactEntry { address: GroupAddress(0x10_0001), text: text(units) }];
    Setting::GroupContacts { operation: Add, flags: BACKGROUND, entries }
}

fn individual_contact(units: usize) -> Setting {
    let entries = vec![ContactEntry { address: IndividualAddress(0x10_0001), text: text(units) }];
    Setting::IndividualContacts { operation: Add, flags: IndividualFlags::default(), entries }
}

/// A text of so many units in each table that has texts, in a row that `full` leaves free; of quick texts in one that was deleted.
fn in_each_table(units: usize) -> [Setting; 8] {
    [
        quick(Add, &[(9, units)]),
        status(Add, &[(127, units)]),
        group(15, units),
        individual(15, units),
        line_slot(15, units),
        group_contact(units),
        individual_contact(units),
        lines(Add, &[(31, units)]),
    ]
}

/// Number and failed ID of a request with these settings.
fn told(set: &mut Set, settings: &[Setting]) -> (u8, u8) {
    let written: Vec<_> = settings.iter().map(Setting::write).collect();
    number(set, &request(&written))
}

/// The same of one setting.
fn told_one(set: &mut Set, setting: &Setting) -> (u8, u8) {
    told(set, std::slice::from_ref(setting))
}

/// 64 quick texts of 23 units, and so many status texts of 16.
fn holding(limits: Limits, status_texts: u8) -> Set {
    let mut set = Set::fresh(limits);
    let indexes: Vec<_> = (0..63).map(|index| (index, 23)).collect();
    let codes: Vec<_> = (32..32 + status_texts).map(|code| (code, 16)).collect();
    assert_eq!(told(&mut set, &[quick(Add, &indexes)]), (0, 0));
    assert_eq!(told(&mut set, &[quick(Add, &[(63, 23)]), status(Add, &codes)]), (0, 0));
    set
}

/// A hand-held whose texts are just 4,096 bytes: 64 x 46 and 36 x 32.
fn full() -> Set {
    let set = holding(HANDHELD, 36);
    assert_eq!(set.tables.text_bytes(), 4_096);
    set
}

/// The number and failed ID of settings to a full hand-held, which stays where they are refused, and the same to a vehicle that holds as much, which takes all.
fn full_and_vehicle(settings: &[Setting]) -> (u8, u8) {
    let (mut set, mut vehicle) = (full(), holding(VEHICLE, 36));
    let said = told(&mut set, settings);
    assert_eq!(set == full(), said.0 != 0, "{settings:?}");
    assert_eq!(told(&mut vehicle, settings), (0, 0), "{settings:?}");
    assert!(said.0 != 0 || vehicle.tables == set.tables, "{settings:?}");
    said
}

#[test]
fn one_unit_more() {
    assert_eq!(full_and_vehicle(&[status(Add, &[(68, 1)])]), (2, 1));
    assert_eq!(full_and_vehicle(&[status(Add, &[(68, 16)])]), (2, 1));
    assert_eq!(full_and_vehicle(&[status(Add, &[(68, 0)])]), (0, 0));
    // What is known is overwritten: as long as before it fits, and one unit longer it does not.
    let mut almost = holding(HANDHELD, 35);
    assert_eq!(told(&mut almost, &[status(Add, &[(67, 15)])]), (0, 0));
    assert_eq!(almost.tables.text_bytes(), 4_094);
    assert_eq!(told(&mut almost.clone(), &[status(Add, &[(67, 15)])]), (0, 0));
    assert_eq!(told(&mut almost.clone(), &[status(Add, &[(67, 16)])]), (0, 0));
    assert_eq!(told(&mut almost.clone(), &[status(Add, &[(68, 1)])]), (0, 0));
    assert_eq!(told(&mut almost, &[status(Add, &[(68, 2)])]), (2, 1));
}

/// All eight tables count, background groups too; texts that are empty do not.
#[test]
fn every_table_counts() {
    let freed = {
        let mut set = full();
        assert_eq!(told(&mut set, &[quick(Delete, &[(9, 0)])]), (0, 0));
        assert_eq!(told(&mut set, &[quick(Add, &[(9, 7)])]), (0, 0));
        assert_eq!(told(&mut set, &[quick(Delete, &[(9, 0)]), status(Add, &[(69, 7)])]), (0, 0));
        assert_eq!(set.tables.text_bytes(), 4_096 - 32);
        set
    };
    for (table, setting) in in_each_table(16).into_iter().enumerate() {
        let mut set = freed.clone();
        assert_eq!(told(&mut set, &[setting]), (0, 0), "{table}");
        assert_eq!(set.tables.text_bytes(), 4_096, "{table}");
        for (other, setting) in in_each_table(1).into_iter().enumerate() {
            // What has its row already is no longer, or, of a quick text, stays.
            let said = told(&mut set.clone(), &[setting]);
            assert_eq!(said, if other == table { (0, 0) } else { (2, 1) }, "{table} {other}");
        }
        for (other, setting) in in_each_table(0).into_iter().enumerate() {
            // A quick text that is empty is no quick text.
            let said = told(&mut set.clone(), &[setting]);
            assert_eq!(said, if other == 0 { (4, 1) } else { (0, 0) }, "{table} {other}");
        }
    }
    for (table, setting) in in_each_table(16).into_iter().enumerate() {
        let said = told(&mut full(), &[setting]);
        assert_eq!(said, if table == 0 { (0, 0) } else { (2, 1) }, "{table}");
    }
}

/// What a delete frees is used again, in a later message and in the same.
#[test]
fn a_delete_frees() {
    let (delete, add) = (quick(Delete, &[(20, 0)]), status(Add, &[(68, 16)]));
    let mut set = full();
    assert_eq!(told_one(&mut set, &delete), (0, 0));
    assert_eq!(set.tables.text_bytes(), 4_050);
    assert_eq!(told_one(&mut set, &add), (0, 0));
    assert_eq!(set.tables.text_bytes(), 4_082);
    assert_eq!(full_and_vehicle(&[delete.clone(), add.clone()]), (0, 0));
    // Later in the message it comes too late, and the whole message is refused.
    assert_eq!(full_and_vehicle(&[add.clone(), delete.clone()]), (2, 1));
    let home = Setting::Home(HomeNumbers { nzi: 15, np: 806 });
    assert_eq!(full_and_vehicle(&[home.clone(), add, delete, home]), (2, 2));
}

/// Each table gives back what it had.
#[test]
fn every_delete_frees() {
    let deletes = [
        quick(Delete, &[(9, 0)]),
        status(Delete, &[(127, 0)]),
        Setting::Group { index: 15, slot: None },
        Setting::Individual { index: 15, slot: None },
        Setting::LineSlot { index: 15, slot: None },
        Setting::GroupContacts { operation: Replace, flags: BACKGROUND, entries: Vec::new() },
        Setting::IndividualContacts {
            operation: Replace,
            flags: IndividualFlags::default(),
            entries: Vec::new(),
        },
        lines(Delete, &[(31, 3)]),
    ];
    for (add, delete) in in_each_table(16).into_iter().zip(deletes) {
        let mut set = full();
        let room = [quick(Delete, &[(9, 0)]), add];
        assert_eq!(told(&mut set, &room), (0, 0), "{delete:?}");
        assert_eq!(set.tables.text_bytes(), 4_096 - 46 + 32);
        assert_eq!(told(&mut set, &[delete]), (0, 0));
        assert_eq!(set.tables.text_bytes(), 4_096 - 46);
    }
}

/// The sum is that of the whole setting: in between it may pass.
#[test]
fn within_a_setting() {
    assert_eq!(full_and_vehicle(&[status(Add, &[(68, 16), (68, 0)])]), (0, 0));
    assert_eq!(full_and_vehicle(&[status(Add, &[(68, 16), (32, 0)])]), (0, 0));
    assert_eq!(full_and_vehicle(&[status(Add, &[(68, 16), (68, 1)])]), (2, 1));
    assert_eq!(full_and_vehicle(&[lines(Add, &[(1, 16), (1, 0)])]), (0, 0));
    // As two settings it is judged after the first.
    let (long, none) = (status(Add, &[(68, 16)]), status(Add, &[(68, 0)]));
    assert_eq!(full_and_vehicle(&[long, none]), (2, 1));
    // A table that is full is judged at each entry still: 33 lines, though the last one is known.
    let mut many: Vec<_> = (0..33).map(|number| (number, 0)).collect();
    many.push((5, 0));
    assert_eq!(told(&mut full(), &[lines(Add, &many)]), (2, 1));
    many.remove(32);
    assert_eq!(told(&mut full(), &[lines(Add, &many)]), (0, 0));
}

#[test]
fn a_quick_add_that_does_nothing() {
    let mut set = full();
    assert_eq!(told(&mut set, &[quick(Add, &[(0, 23), (63, 1)])]), (0, 0));
    assert_eq!(set, full());
    // Shorter texts stay as they are too, and do not become longer.
    assert_eq!(told(&mut set, &[quick(Replace, &[(0, 1)])]), (0, 0));
    assert_eq!(told(&mut set, &[quick(Add, &[(0, 23)])]), (0, 0));
    assert_eq!(shown(&set, Row::Quick(0)), Shown::Stored(text(1)));
}

/// A replace counts without what it empties.
#[test]
fn a_replace_by_shorter_texts() {
    let shorter: Vec<_> = (32..32 + 38).map(|code| (code, 15)).collect();
    assert_eq!(full_and_vehicle(&[status(Replace, &shorter)]), (0, 0));
    let longer: Vec<_> = (32..32 + 39).map(|code| (code, 15)).collect();
    assert_eq!(full_and_vehicle(&[status(Replace, &longer)]), (2, 1));
    // Then there is room again: 22 units of each of 63, which are 172 bytes fewer.
    let mut set = full();
    let quicks: Vec<_> = (0..63).map(|index| (index, 22)).collect();
    assert_eq!(told(&mut set, &[quick(Replace, &quicks)]), (0, 0));
    assert_eq!(set.tables.text_bytes(), 4_096 - 63 * 2 - 46);
    let five: Vec<_> = (68..73).map(|code| (code, 16)).collect();
    assert_eq!(told(&mut set.clone(), &[status(Add, &five), status(Add, &[(73, 7)])]), (2, 2));
    assert_eq!(told(&mut set, &[status(Add, &five), status(Add, &[(73, 6)])]), (0, 0));
    assert_eq!(set.tables.text_bytes(), 4_096);
}

#[test]
fn a_longer_text_of_a_line() {
    let mut set = holding(HANDHELD, 35);
    assert_eq!(told(&mut set, &[lines(Add, &[(1, 8), (2, 7)])]), (0, 0));
    assert_eq!(set.tables.text_bytes(), 4_094);
    let before = set.clone();
    assert_eq!(told(&mut set, &[lines(Add, &[(1, 10)])]), (2, 1));
    assert_eq!(set, before);
    assert_eq!(told(&mut set, &[lines(Add, &[(1, 9)])]), (0, 0));
    assert_eq!(told(&mut set, &[lines(Add, &[(2, 8)])]), (2, 1));
    // One gives what the other takes.
    assert_eq!(told(&mut set, &[lines(Add, &[(2, 16), (1, 0)])]), (0, 0));
    assert_eq!(set.tables.text_bytes(), 4_096);
}

/// Type, fields and room, in each setting in turn.
#[test]
fn fields_come_first() {
    let mut set = full();
    let (over, home) = (status(Add, &[(68, 16)]).write(), bytes("CD 00 05 07 E4 C0"));
    // A code of 31 behind the text that has no room; NP 807 in an earlier and in a later setting.
    let mut code_31 = status(Add, &[(68, 16), (69, 0)]).write();
    let place = code_31.len() - 3;
    code_31[place] = 31;
    assert_eq!(number(&mut set, &request(&[code_31])), (4, 1));
    let np_807 = bytes("CD 00 05 07 E4 E0");
    assert_eq!(number(&mut set, &request(&[np_807.clone(), over.clone()])), (4, 1));
    assert_eq!(number(&mut set, &request(&[home, over.clone(), np_807])), (2, 2));
    assert_eq!(number(&mut set, &request(&[over.clone(), bytes("D4")])), (2, 1));
    assert_eq!(number(&mut set, &request(&[bytes("D4"), over.clone()])), (3, 1));
    // Bytes left over come last.
    let mut left_over = request(&[over]);
    left_over.push(0);
    left_over[2..4].fill(0);
    assert_eq!(number(&mut set, &left_over), (2, 1));
    assert_eq!(set, full());
}

/// A full table and texts over the area are the same number.
#[test]
fn both_are_one_number() {
    let mut set = full();
    let many: Vec<_> = (0..32).map(|number| (number, 0)).collect();
    assert_eq!(told(&mut set, &[lines(Add, &many)]), (0, 0));
    for (number, units, said) in [(32, 0, 2), (32, 1, 2), (31, 1, 2), (31, 0, 0)] {
        let said = (said, u8::from(said != 0));
        assert_eq!(told(&mut set.clone(), &[lines(Add, &[(number, units)])]), said);
    }
    // Free places promise no room for texts.
    assert_eq!((full().free(), told(&mut full(), &[lines(Add, &[(1, 1)])])), ((32, 64), (2, 1)));
}

/// What has no text has room, also in a full area.
#[test]
fn settings_without_texts() {
    let settings = [
        Setting::Channels { operation: Add, channels: vec![241; 64] },
        Setting::Home(HomeNumbers { nzi: 1, np: 1 }),
        Setting::Emergency(EmergencyKey { siren: true, ..EmergencyKey::default() }),
        Setting::System(SystemCode { lai: 1, ..SystemCode::default() }),
        quick(Add, &[]),
        status(Delete, &[(127, 16)]),
        Setting::Group { index: 3, slot: None },
    ];
    assert_eq!(full_and_vehicle(&settings), (0, 0));
}

/// A unit takes two bytes also where it came in one.
#[test]
fn eight_bit_texts() {
    let setting = |units| {
        let entries = vec![TextEntry { key: 68, text: vec![0x41; units] }];
        let written = Setting::StatusTexts { operation: Add, entries }.write_as(Coding::Eight);
        request_as(Coding::Eight, &[written.expect("41 is below 256")])
    };
    let mut set = holding(HANDHELD, 35);
    assert_eq!(number(&mut set, &setting(16)), (0, 0));
    assert_eq!(set.tables.text_bytes(), 4_096);
    assert_eq!(number(&mut set, &setting(15)), (0, 0));
    assert_eq!(told(&mut set, &[status(Add, &[(69, 2)])]), (2, 1));
}

/// Whatever stood there before: the same tables are the same bytes.
#[test]
fn two_orders_are_the_same_bytes() {
    let adds = in_each_table(16);
    let (mut one, mut other, mut third) =
        (Set::fresh(HANDHELD), Set::fresh(HANDHELD), Set::fresh(HANDHELD));
    for add in &adds {
        assert_eq!(told_one(&mut one, add), (0, 0));
    }
    for add in adds.iter().rev() {
        assert_eq!(told_one(&mut other, add), (0, 0));
    }
    // Other texts first, of which some are overwritten and some deleted.
    assert_eq!(told(&mut third, &[status(Add, &[(50, 16), (127, 3)]), line_slot(15, 2)]), (0, 0));
    assert_eq!(told(&mut third, &[quick(Add, &[(9, 23), (10, 23)]), group(15, 9)]), (0, 0));
    assert_eq!(told(&mut third, &[quick(Replace, &[]), status(Delete, &[(50, 0)])]), (0, 0));
    assert_eq!(told(&mut third, &adds), (0, 0));
    let kept = layout::bytes(&one);
    assert!(layout::is_store(&kept, HANDHELD));
    assert!(kept == layout::bytes(&other) && kept == layout::bytes(&third));
}
