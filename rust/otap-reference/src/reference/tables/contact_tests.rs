//! Request A4 by hand: what C8, C9 and D3 do, how they are shown and exported.

use super::*;
use crate::layout;
use crate::programs::{put_writes, take_prints};
use crate::records::push_record;
use crate::reference::by_hand::{bytes, number, number_of, scratch, shown, stored, taken};
use crate::reference::export::{export, part_bytes, Exported, PARTS};
use crate::reference::limits::{HANDHELD, VEHICLE};
use crate::reference::message::request;
use crate::reference::plan::{GroupAddress, IndividualAddress};
use crate::reference::screen::{row_number, row_part, Row, Shown, SCRATCH_ROOM};
use crate::reference::settings::{ContactEntry, GroupFlags, IndividualFlags, LineFlags};
use Operation::{Add, Delete, Replace};

const MEMBER: u8 = 3;

/// Group contacts with an attribute and otherwise no flags, each an address and a name.
fn groups(operation: Operation, attribute: u8, contacts: &[(u32, &str)]) -> Vec<u8> {
    let entry = |&(address, text): &(u32, &str)| ContactEntry {
        address: GroupAddress(address),
        text: text.encode_utf16().collect(),
    };
    let flags = GroupFlags { attribute, ..GroupFlags::default() };
    let entries = contacts.iter().map(entry).collect();
    Setting::GroupContacts { operation, flags, entries }.write()
}

fn individuals(operation: Operation, contacts: &[(u32, &str)]) -> Vec<u8> {
    let entry = |&(address, text): &(u32, &str)| ContactEntry {
        address: IndividualAddress(address),
        text: text.encode_utf16().collect(),
    };
    let flags = IndividualFlags::default();
    let entries = contacts.iter().map(entry).collect();
    Setting::IndividualContacts { operation, flags, entries }.write()
}

/// Settings of either list, for what both do alike.
type Contacts = fn(Operation, &[(u32, &str)]) -> Vec<u8>;
type Addresses = fn(&Set) -> Vec<u32>;
const LISTS: [(Contacts, Addresses); 2] = [
    (|operation, contacts| groups(operation, MEMBER, contacts), group_addresses),
    (individuals, individual_addresses),
];

fn group_addresses(set: &Set) -> Vec<u32> {
    set.tables.group_contacts.iter().map(|contact| contact.address.0).collect()
}

fn individual_addresses(set: &Set) -> Vec<u32> {
    set.tables.individual_contacts.iter().map(|contact| contact.address.0).collect()
}

/// Contacts without names, from address 100001 on.
fn numbered(places: std::ops::Range<u32>) -> Vec<(u32, &'static str)> {
    places.map(|place| (0x10_0001 + place, "")).collect()
}

fn take_settings(set: &mut Set, settings: &[Vec<u8>]) -> (u8, u8) {
    number(set, &request(settings))
}

fn part(part: u8, set: &Set) -> Vec<u8> {
    part_bytes(part, set).expect("the part is one of the ten")
}

/// What an exported request has behind ParamSum.
fn exported(of: u8, set: &Set) -> Vec<u8> {
    part(of, set)[8..].to_vec()
}

#[test]
fn a_response_group() {
    let set = taken(&["C8 00 0C 60 00 01 10 00 01 00 41 00 00"]);
    assert_eq!(shown(&set, Row::GroupContact(0)), stored("A"));
    assert_eq!(shown(&set, Row::GroupContact(1)), Shown::Nothing);
    let add = "C8 00 05 D0 00 00 C8 00 0C 60 00 01 10 00 01 00 41 00 00";
    assert_eq!(exported(8, &set), bytes(add));
    assert_eq!(layout::bytes(&set)[774..782], bytes("00 01 80 10 00 01 01 00"));
}

#[test]
fn a_background_group() {
    let set = taken(&["C8 00 0C 50 00 01 10 00 01 00 41 00 00"]);
    let mut lent = [0xEE; SCRATCH_ROOM];
    assert_eq!(row_number(Row::GroupContact(0), true, &set, &lent), 17);
    assert_eq!(row_part(Row::GroupContact(0), true, &set, &mut lent), Shown::Nothing);
    assert_eq!(lent, [0xEE; SCRATCH_ROOM]);
    let add = "C8 00 05 D0 00 00 C8 00 0C 50 00 01 10 00 01 00 41 00 00";
    assert_eq!(exported(8, &set), bytes(add));
}

/// It keeps its position; one setting has one attribute, so there are three.
#[test]
fn a_background_group_between_two_others() {
    let mut set = Set::fresh(HANDHELD);
    let settings = [
        groups(Add, 2, &[(0x10_0001, "a")]),
        groups(Add, 1, &[(0x10_0002, "b")]),
        groups(Add, 3, &[(0x10_0003, "")]),
    ];
    assert_eq!(take_settings(&mut set, &settings), (0, 0));
    let rows = [0, 1, 2, 3].map(|position| shown(&set, Row::GroupContact(position)));
    assert_eq!(rows, [stored("a"), Shown::Nothing, scratch("32820902"), Shown::Nothing]);
    // Taken away, it leaves no gap; made a member group, it is shown.
    let mut fewer = set.clone();
    assert_eq!(take_settings(&mut fewer, &[groups(Delete, 2, &[(0x10_0002, "")])]), (0, 0));
    assert_eq!(shown(&fewer, Row::GroupContact(1)), scratch("32820902"));
    assert_eq!(take_settings(&mut set, &[groups(Add, 3, &[(0x10_0002, "b")])]), (0, 0));
    assert_eq!(shown(&set, Row::GroupContact(1)), stored("b"));
}

#[test]
fn background_group_slots() {
    for (head, wanted) in [("50", Shown::Nothing), ("60", stored("A")), ("70", stored("A"))] {
        let add = format!("D1 00 0B {head} 05 10 00 01 00 41 00 00");
        let set = taken(&[&add]);
        assert_eq!(shown(&set, Row::Group(5)), wanted);
        assert_eq!(exported(6, &set)[50..62], bytes(&add));
    }
    let unnamed = taken(&["D1 00 09 50 05 10 00 01 00 00"]);
    assert_eq!(shown(&unnamed, Row::Group(5)), Shown::Nothing);
}

/// By the plan of the kind, and in hex outside it.
#[test]
fn numbers_of_unnamed_contacts() {
    let mut set = Set::fresh(HANDHELD);
    let contacts = [(0x10_0001, ""), (0x10_1B59, ""), (0xFF_7DC9, "")];
    let settings = [groups(Add, MEMBER, &contacts), individuals(Add, &contacts)];
    assert_eq!(take_settings(&mut set, &settings), (0, 0));
    let groups = [0, 1, 2].map(|position| shown(&set, Row::GroupContact(position)));
    assert_eq!(groups, ["32820900", "101B59", "FF7DC9"].map(scratch));
    let individuals = [0, 1, 2].map(|position| shown(&set, Row::IndividualContact(position)));
    assert_eq!(individuals, ["32820200", "32830200", "FF7DC9"].map(scratch));
}

#[test]
fn a_known_address_is_overwritten_in_its_place() {
    let mut set = taken(&[
        "C8 00 13 7F C0 02 10 00 01 00 61 00 00 10 00 02 00 62 00 00",
        "C9 00 12 7C 02 10 00 01 00 61 00 00 10 00 02 00 62 00 00",
    ]);
    let (group, individual) =
        (set.tables.group_contacts.clone(), set.tables.individual_contacts.clone());
    let settings = ["C8 00 0A 60 00 01 10 00 01 00 00", "C9 00 09 40 01 10 00 01 00 00"];
    assert_eq!(number_of(&mut set, &settings), (0, 0));
    let flags = GroupFlags { attribute: 2, ..GroupFlags::default() };
    let wanted = [flags.of(GroupAddress(0x10_0001), Text::new()), group[1].clone()];
    assert_eq!(set.tables.group_contacts, wanted);
    let flags = IndividualFlags::default();
    let wanted = [flags.of(IndividualAddress(0x10_0001), Text::new()), individual[1].clone()];
    assert_eq!(set.tables.individual_contacts, wanted);
}

#[test]
fn a_delete_closes_the_gap() {
    for (contacts, addresses) in LISTS {
        let mut set = Set::fresh(HANDHELD);
        assert_eq!(take_settings(&mut set, &[contacts(Add, &numbered(0..5))]), (0, 0));
        // The flags and the text of a delete do not count, and an absent address does nothing.
        let gone = [(0x10_0003, "x"), (0x20_0002, ""), (0x10_0003, "")];
        assert_eq!(take_settings(&mut set, &[contacts(Delete, &gone)]), (0, 0));
        assert_eq!(addresses(&set), [0x10_0001, 0x10_0002, 0x10_0004, 0x10_0005]);
        assert_eq!(take_settings(&mut set, &[contacts(Add, &[(0x10_0003, "")])]), (0, 0));
        assert_eq!(addresses(&set), [0x10_0001, 0x10_0002, 0x10_0004, 0x10_0005, 0x10_0003]);
        assert_eq!(take_settings(&mut set, &[contacts(Delete, &[])]), (0, 0));
        assert_eq!(addresses(&set).len(), 5);
    }
}

/// One address twice keeps the first place and the last text.
#[test]
fn a_replace_empties_the_list_first() {
    for (contacts, addresses) in LISTS {
        let mut set = Set::fresh(HANDHELD);
        assert_eq!(take_settings(&mut set, &[contacts(Add, &numbered(0..5))]), (0, 0));
        let new = [(0x10_0009, "a"), (0x10_0003, "b"), (0x10_0009, "c")];
        assert_eq!(take_settings(&mut set, &[contacts(Replace, &new)]), (0, 0));
        assert_eq!(addresses(&set), [0x10_0009, 0x10_0003]);
        let first = [Row::GroupContact(0), Row::IndividualContact(0)].map(|row| shown(&set, row));
        assert!(first.contains(&stored("c")));
        assert_eq!(take_settings(&mut set, &[contacts(Replace, &[])]), (0, 0));
        assert_eq!(set, Set::fresh(HANDHELD));
    }
    assert_eq!(taken(&["C8 00 05 D0 00 00", "C9 00 04 C0 00"]), Set::fresh(HANDHELD));
}

/// By one setting or by many.
#[test]
fn the_65th_has_no_room() {
    for (contacts, addresses) in LISTS {
        let one = |place: u32| contacts(Add, &numbered(place..place + 1));
        let each = |places: std::ops::Range<u32>| places.map(one).collect::<Vec<_>>();
        let mut set = Set::fresh(HANDHELD);
        assert_eq!(take_settings(&mut set, &[contacts(Add, &numbered(0..65))]), (2, 1));
        assert_eq!(take_settings(&mut set, &each(0..65)), (2, 65));
        assert_eq!(take_settings(&mut set, &[contacts(Replace, &numbered(0..65))]), (2, 1));
        assert_eq!(set, Set::fresh(HANDHELD));
        assert_eq!(take_settings(&mut set, &each(0..64)), (0, 0));
        let mut same = Set::fresh(HANDHELD);
        assert_eq!(take_settings(&mut same, &[contacts(Add, &numbered(0..64))]), (0, 0));
        assert_eq!((addresses(&set).len(), &same), (64, &set));
        assert_eq!(take_settings(&mut set, &[one(64)]), (2, 1));
        assert_eq!(take_settings(&mut set, &[one(63)]), (0, 0));
        assert_eq!(set, same);
    }
}

#[test]
fn a_full_list_has_room_for_what_it_knows() {
    for (contacts, addresses) in LISTS {
        let mut set = Set::fresh(HANDHELD);
        // 65 entries with 64 addresses.
        let twice = [numbered(0..64), numbered(5..6)].concat();
        assert_eq!(take_settings(&mut set, &[contacts(Add, &twice)]), (0, 0));
        assert_eq!(take_settings(&mut set, &[contacts(Replace, &twice)]), (0, 0));
        assert_eq!(take_settings(&mut set, &[contacts(Add, &numbered(0..64))]), (0, 0));
        // Room freed earlier in the same message, and not by an absent address.
        let new = contacts(Add, &numbered(70..71));
        let [absent, known] = [80..81, 3..4].map(|places| contacts(Delete, &numbered(places)));
        assert_eq!(take_settings(&mut set, &[absent, new.clone()]), (2, 2));
        assert_eq!(take_settings(&mut set, &[known, new]), (0, 0));
        assert_eq!((addresses(&set).len(), addresses(&set)[63]), (64, 0x10_0001 + 70));
    }
}

#[test]
fn line_slots() {
    let mut set = taken(&["D3 00 09 42 03 23 45 FF 00 00", "D3 00 09 7C 0F 1F 00 41 00 00"]);
    assert_eq!(shown(&set, Row::LineSlot(3)), scratch("2345"));
    assert_eq!(shown(&set, Row::LineSlot(15)), stored("A"));
    for absent in [0, 2, 4, 14, 16] {
        assert_eq!(shown(&set, Row::LineSlot(absent)), Shown::Nothing);
    }
    let flags = LineFlags { encryption: true, emergency: true, priority: 3, pabx: false };
    let line = Line { digits: vec![1], flags, text: vec![0x41] };
    assert_eq!(set.tables.line_slots[15], Some(line));
    // Overwritten, number and all; then emptied by a delete, whose number is not the slot's.
    assert_eq!(number_of(&mut set, &["D3 00 09 40 03 1F 00 62 00 00"]), (0, 0));
    assert_eq!(shown(&set, Row::LineSlot(3)), stored("b"));
    assert_eq!(
        number_of(&mut set, &["D3 00 07 80 03 0F 00 00", "D3 00 07 80 04 0F 00 00"]),
        (0, 0)
    );
    assert_eq!(shown(&set, Row::LineSlot(3)), Shown::Nothing);
    assert_eq!(shown(&set, Row::LineSlot(15)), stored("A"));
    // One number may stand in every slot.
    let all: Vec<String> =
        (0..16).map(|index| format!("D3 00 07 40 {index:02X} 1F 00 00")).collect();
    let all: Vec<&str> = all.iter().map(String::as_str).collect();
    assert!(taken(&all).tables.line_slots.iter().all(Option::is_some));
}

/// One address in C8, C9, D1 and D2, and one line in CA and D3.
#[test]
fn tables_are_independent() {
    let adds = [
        "C8 00 0A 60 00 01 10 00 01 00 00",
        "C9 00 09 40 01 10 00 01 00 00",
        "CA 00 09 42 01 23 45 FF 00 00",
        "D1 00 09 60 00 10 00 01 00 00",
        "D2 00 09 40 00 10 00 01 00 00",
        "D3 00 09 42 00 23 45 FF 00 00",
    ];
    let deletes = [
        "C8 00 0A A0 00 01 10 00 01 00 00",
        "C9 00 09 80 01 10 00 01 00 00",
        "CA 00 09 82 01 23 45 FF 00 00",
        "D1 00 09 80 00 10 00 01 00 00",
        "D2 00 09 80 00 10 00 01 00 00",
        "D3 00 09 82 00 23 45 FF 00 00",
    ];
    for (place, delete) in deletes.iter().enumerate() {
        let mut set = taken(&adds);
        assert_eq!(number_of(&mut set, &[delete]), (0, 0));
        let mut others = adds.to_vec();
        others.remove(place);
        assert_eq!(set, taken(&others), "{delete}");
    }
}

#[test]
fn parts_of_a_fresh_set() {
    let fresh = Set::fresh(HANDHELD);
    assert_eq!(part(8, &fresh), bytes("02 02 00 0A 08 07 08 01 C8 00 05 D0 00 00"));
    assert_eq!(part(9, &fresh), bytes("02 02 00 09 08 07 08 01 C9 00 04 C0 00"));
    assert_eq!(part(10, &fresh)[..8], bytes("02 02 00 84 08 07 08 10"));
    for (index, setting) in exported(10, &fresh).chunks(8).enumerate() {
        assert_eq!(setting, bytes(&format!("D3 00 07 80 {index:02X} 0F 00 00")));
    }
    let mut buffer = vec![0; HANDHELD.message];
    for (part, number) in [(0, 16), (10, 0), (11, 16), (255, 16)] {
        let Exported { number: said, length } = export(part, true, &fresh, &mut buffer);
        assert_eq!((said, length == 0), (number, number != 0), "part {part}");
    }
    assert_eq!(PARTS, 10);
}

/// Flags stand once a setting, so that each contact has its own.
#[test]
fn parts_of_contacts() {
    let set = taken(&[
        "C8 00 0F 5F C0 02 10 00 01 00 00 FF FF FF 00 00",
        "C8 00 0C 68 40 01 10 00 02 00 41 00 00",
        "C9 00 09 6C 01 10 00 01 00 00",
        "D3 00 0C 5E 01 12 3F 4E 2D 00 41 00 00",
    ]);
    let groups = "C8 00 05 D0 00 00 C8 00 0A 5F C0 01 10 00 01 00 00 \
        C8 00 0A 5F C0 01 FF FF FF 00 00 C8 00 0C 68 40 01 10 00 02 00 41 00 00";
    assert_eq!(exported(8, &set), bytes(groups));
    let individuals = "C9 00 04 C0 00 C9 00 09 6C 01 10 00 01 00 00";
    assert_eq!(exported(9, &set), bytes(individuals));
    let slots = "D3 00 07 80 00 0F 00 00 D3 00 0C 5E 01 12 3F 4E 2D 00 41 00 00 \
        D3 00 07 80 02 0F 00 00";
    assert_eq!(exported(10, &set)[..29], bytes(slots));
}

/// A set with all three tables full, of numbers of the greatest length and texts of so many units.
fn full(limits: Limits, units: usize) -> Set {
    let mut set = Set::fresh(limits);
    let text = "y".repeat(units);
    let contacts: Vec<(u32, &str)> = (1..65).map(|place| (0x10_0000 + place, &text[..])).collect();
    let settings = [groups(Add, 1, &contacts), individuals(Add, &contacts)];
    for setting in settings {
        assert_eq!(take_settings(&mut set, &[setting]), (0, 0));
    }
    let flags = LineFlags { pabx: true, priority: 3, ..LineFlags::default() };
    let line = Line { digits: vec![9; 18], flags, text: text.encode_utf16().collect() };
    let slot = |index| Setting::LineSlot { index, slot: Some(line.clone()) }.write();
    assert_eq!(take_settings(&mut set, &(0..16).map(slot).collect::<Vec<_>>()), (0, 0));
    set
}

/// A vehicle has room for all texts of the greatest length; to a hand-held 144 of 14 units are 4,032 bytes.
#[test]
fn parts_of_a_full_set() {
    let full = full(VEHICLE, 16);
    let lengths = [8, 9, 10].map(|of| part(of, &full).len());
    assert_eq!(lengths, [8 + 6 + 64 * 43, 8 + 5 + 64 * 42, 8 + 16 * 49]);
    assert!(lengths.iter().all(|&length| length <= HANDHELD.message));
    assert_eq!(part(8, &full)[7], 65);
    // Whatever the other set held.
    restored(&full, Set::fresh(VEHICLE));
    restored(&Set::fresh(VEHICLE), full);
}

#[test]
fn parts_of_a_full_handheld() {
    let full = full(HANDHELD, 14);
    assert_eq!(full.tables.text_bytes(), 4_032);
    restored(&full, Set::fresh(HANDHELD));
    restored(&Set::fresh(HANDHELD), full);
}

/// All parts of one set, taken by the other.
fn restored(from: &Set, mut into: Set) {
    for of in 1..=PARTS {
        assert_eq!(number(&mut into, &part(of, from)), (0, 0), "part {of}");
    }
    assert_eq!(into, *from);
}

#[test]
fn put_writes_ten_records() {
    let mut input = Vec::new();
    let settings = ["C8 00 0C 50 00 01 10 00 01 00 41 00 00", "D3 00 09 42 03 23 45 FF 00 00"];
    push_record(&mut input, 8, &request(&settings.map(bytes)));
    push_record(&mut input, 9, &request(&[bytes("C9 00 09 40 01 10 00 01 00 00")]));
    assert_eq!(take_prints(&input), "8 0 0\n9 0 0\n");
    let put = put_writes(&input);
    let lines: Vec<String> = (1..=10).map(|kind| format!("{kind} 0 0\n")).collect();
    assert_eq!(take_prints(&put), lines.concat());
    assert!(put_writes(&put) == put);
}
