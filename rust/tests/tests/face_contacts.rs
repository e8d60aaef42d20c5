//! Group contacts, individual contacts and background groups: the archive behind the face against the reference, and by hand.

use otap::{Part, Refusal, Set, Slice, Table, CONTACT_ROWS, SCRATCH_ROOM};
use otap_reference::layout::{self, Slots, COUNT};
use otap_reference::reference::screen::Row;
use otap_reference::reference::settings::Operation::{self, Add, Delete, Replace};
use otap_tests::for_both_sets;
use otap_tests::pair::Pair;
use otap_tests::sets::Tried;
use otap_tests::{bytes, group_contacts, hex_request, individual_contacts, request};

for_both_sets!(
    a_response_group_and_a_background_group,
    a_background_group_between_two_others,
    background_group_slots,
    fields_of_contacts,
    lengths_and_counts_of_contacts,
    flags_and_text_are_overwritten_in_their_place,
    a_delete_closes_the_gap_and_a_replace_empties_first,
    the_65th_has_no_room,
    bytes_of_contacts,
    tables_are_independent,
);

/// Adds group 100001 "A" to the contacts: a response group, and a background group.
const RESPONSE: &str = "C8 00 0C 60 00 01 10 00 01 00 41 00 00";
const BACKGROUND: &str = "C8 00 0C 50 00 01 10 00 01 00 41 00 00";

/// A store that took these settings in hex in one request, as the reference did; the rows and exports of both are compared.
fn after<K: Tried>(settings: &[&str]) -> Pair<K> {
    let mut pair = Pair::<K>::fresh();
    assert_eq!(pair.commit(&hex_request(settings)), 0, "{settings:?}");
    pair.compare_exports();
    pair.compare_rows();
    pair
}

/// Number and failed ID of one such request to a fresh store.
fn told<K: Tried>(settings: &[&str]) -> (u8, u8) {
    Pair::<K>::fresh().told(&hex_request(settings))
}

/// What a row shows: of which slice, and which characters.
fn shown<K: Tried>(pair: &mut Pair<K>, table: Table, row: u32) -> Result<(Slice, String), Refusal> {
    let mut scratch = [0; SCRATCH_ROOM];
    let store = pair.store();
    let row = store.row(table, row, &mut scratch)?;
    let units: Vec<u16> = row.units().collect();
    Ok((row.slice(), String::from_utf16(&units).expect("characters")))
}

fn stored(text: &str) -> Result<(Slice, String), Refusal> {
    Ok((Slice::Store, text.to_string()))
}

fn number(digits: &str) -> Result<(Slice, String), Refusal> {
    Ok((Slice::Scratch, digits.to_string()))
}

const NO_ROW: Result<(Slice, String), Refusal> = Err(Refusal::NoSuchRow);

/// The settings of an exported part, behind ParamSum.
fn exported<K: Tried>(pair: &mut Pair<K>, part: Part) -> Vec<u8> {
    let mut buffer = vec![0; K::LONGEST_MESSAGE];
    let store = pair.store();
    store.export(part, &mut buffer).expect("a part of a store")[8..].to_vec()
}

/// Settings of either list, for what both do alike, and where its slots stand.
type Contacts = fn(Operation, &[(u32, &str)]) -> Vec<u8>;
fn lists<K: Tried>() -> [(Contacts, Table, Slots); 2] {
    let regions = K::LIMITS.regions();
    let groups: Contacts = |operation, contacts| group_contacts(operation, 3, contacts);
    [
        (groups, Table::GroupContacts, regions.group_contacts),
        (individual_contacts, Table::IndividualContacts, regions.individual_contacts),
    ]
}

/// Contacts without names, from address 100001 on.
fn numbered(places: std::ops::Range<u32>) -> Vec<(u32, &'static str)> {
    places.map(|place| (0x10_0001 + place, "")).collect()
}

/// The low bytes of the addresses that a list holds, as the store keeps them, behind a count.
fn kept<K: Tried>(pair: &Pair<K>, list: Slots) -> Vec<u8> {
    (0..list.count(&pair.bytes).into()).map(|place| pair.bytes[list.slot(place) + 3]).collect()
}

/// The count of a list, then flags and address of its first contact.
fn start<K: Tried>(pair: &Pair<K>, list: Slots) -> &[u8] {
    &pair.bytes[list.at - COUNT..][..6]
}

/// Flags and address of a contact.
fn head<K: Tried>(pair: &Pair<K>, list: Slots, place: usize) -> &[u8] {
    &pair.bytes[list.slot(place)..][..4]
}

fn a_response_group_and_a_background_group<K: Tried>() {
    let clear = "C8 00 05 D0 00 00";
    let mut response = after::<K>(&[RESPONSE]);
    assert_eq!(shown(&mut response, Table::GroupContacts, 0), stored("A"));
    assert_eq!(shown(&mut response, Table::GroupContacts, 1), NO_ROW);
    let list = K::LIMITS.regions().group_contacts;
    assert_eq!(start(&response, list), bytes("00 01 80 10 00 01"));
    let both = format!("{clear} {RESPONSE}");
    assert_eq!(exported(&mut response, Part::GroupContacts), bytes(&both));
    let mut background = after::<K>(&[BACKGROUND]);
    assert_eq!(shown(&mut background, Table::GroupContacts, 0), NO_ROW);
    assert_eq!(start(&background, list), bytes("00 01 40 10 00 01"));
    let text = layout::text_at(&background.bytes, K::LIMITS, Row::GroupContact(0));
    assert_eq!(background.bytes[text..][..4], bytes("00 41 00 00"));
    let both = format!("{clear} {BACKGROUND}");
    assert_eq!(exported(&mut background, Part::GroupContacts), bytes(&both));
}

/// It keeps its position: the row behind it is not moved up, and is the next one once it is deleted.
fn a_background_group_between_two_others<K: Tried>() {
    let mut pair = Pair::<K>::fresh();
    let three = [
        group_contacts(Add, 2, &[(0x10_0001, "a")]),
        group_contacts(Add, 1, &[(0x10_0002, "b")]),
        group_contacts(Add, 3, &[(0x10_0003, "")]),
    ];
    assert_eq!(pair.commit(&request(&three)), 0);
    let rows = |pair: &mut Pair<K>| [0, 1, 2, 3].map(|row| shown(pair, Table::GroupContacts, row));
    assert_eq!(rows(&mut pair), [stored("a"), NO_ROW, number("32820902"), NO_ROW]);
    pair.compare_exports();
    let named = group_contacts(Add, 3, &[(0x10_0002, "c")]);
    assert_eq!(pair.commit(&request(&[named])), 0);
    assert_eq!(rows(&mut pair), [stored("a"), stored("c"), number("32820902"), NO_ROW]);
    let hidden = group_contacts(Add, 1, &[(0x10_0001, "a")]);
    let gone = group_contacts(Delete, 2, &[(0x10_0002, "")]);
    assert_eq!(pair.commit(&request(&[hidden, gone])), 0);
    assert_eq!(rows(&mut pair), [NO_ROW, number("32820902"), NO_ROW, NO_ROW]);
}

fn background_group_slots<K: Tried>() {
    for (head, wanted) in [("50", NO_ROW), ("60", stored("A")), ("70", stored("A"))] {
        let setting = format!("D1 00 0B {head} 0F 10 00 01 00 41 00 00");
        let mut pair = after::<K>(&[&setting]);
        assert_eq!(shown(&mut pair, Table::Groups, 15), wanted, "{head}");
        assert!(exported(&mut pair, Part::Groups).ends_with(&bytes(&setting)));
    }
    let mut nameless = after::<K>(&["D1 00 09 50 00 10 00 01 00 00"]);
    assert_eq!(shown(&mut nameless, Table::Groups, 0), NO_ROW);
}

/// Attribute 00 is at fault also in a delete and without an entry; so is an address out of range.
fn fields_of_contacts<K: Tried>() {
    for operation in ["40", "80", "C0"] {
        assert_eq!(told::<K>(&[&format!("C8 00 05 {operation} 00 00")]), (4, 1), "attribute 00");
        let entry = format!("C8 00 0A {operation} 00 01 10 00 01 00 00");
        assert_eq!(told::<K>(&[&entry]), (4, 1), "attribute 00");
    }
    for operation in ["50", "90", "D0", "60", "A0", "E0", "70", "B0", "F0"] {
        assert_eq!(told::<K>(&[&format!("C8 00 05 {operation} 00 00")]), (0, 0));
        for (address, wanted) in
            [("0F FF FF", 4), ("10 80 00", 4), ("10 00 00", 4), ("10 80 01", 0)]
        {
            let setting = format!("C8 00 0A {operation} 00 01 {address} 00 00");
            assert_eq!(told::<K>(&[&setting]).0, wanted, "{setting}");
        }
    }
    for operation in ["40", "80", "C0"] {
        assert_eq!(told::<K>(&[&format!("C9 00 04 {operation} 00")]), (0, 0));
        for (address, wanted) in [("0F FF FF", 4), ("10 80 00", 4), ("FF FF FF", 0)] {
            let setting = format!("C9 00 09 {operation} 01 {address} 00 00");
            assert_eq!(told::<K>(&[&setting]).0, wanted, "{setting}");
        }
    }
    assert_eq!(
        [told::<K>(&["C8 00 05 10 00 00"]), told::<K>(&["C9 00 04 00 00"])],
        [(4, 1); 2],
        "operation 00"
    );
}

fn lengths_and_counts_of_contacts<K: Tried>() {
    assert_eq!(told::<K>(&["C8 00 04 D0 00"]), (4, 1), "the least is 5");
    assert_eq!(told::<K>(&["C9 00 03 C0"]), (4, 1), "the least is 4");
    assert_eq!(told::<K>(&["C8 00 06 D0 00 00 00"]), (4, 1));
    assert_eq!(told::<K>(&["C8 00 0A 60 00 02 10 00 01 00 00"]), (4, 1), "one entry is missing");
    assert_eq!(told::<K>(&["C9 00 09 40 00 10 00 01 00 00"]), (4, 1), "one too many");
    assert_eq!(told::<K>(&["C8 00 08 60 00 01 10 00 01"]), (4, 1), "no text");
    // Reserved bits are passed over, and Count has eight.
    assert!(
        after::<K>(&["C8 00 0C 60 3F 01 10 00 01 00 41 00 00"]).bytes
            == after::<K>(&[RESPONSE]).bytes
    );
    let plain = after::<K>(&["C9 00 09 40 01 10 00 01 00 00"]).bytes;
    assert!(after::<K>(&["C9 00 09 43 01 10 00 01 00 00"]).bytes == plain);
    for (units, wanted) in [(16, 0), (17, 4)] {
        let text = " 4E 2D".repeat(units);
        let length = 2 * units + 10;
        assert_eq!(
            told::<K>(&[&format!("C8 00 {length:02X} 60 00 01 10 00 01{text} 00 00")]).0,
            wanted
        );
        let length = length - 1;
        assert_eq!(
            told::<K>(&[&format!("C9 00 {length:02X} 40 01 10 00 01{text} 00 00")]).0,
            wanted
        );
    }
    assert_eq!(told::<K>(&["D4 00 05 D0 00 00"]), (3, 1));
}

fn flags_and_text_are_overwritten_in_their_place<K: Tried>() {
    let mut pair = after::<K>(&[
        "C8 00 13 7F C0 02 10 00 01 00 61 00 00 10 00 02 00 62 00 00",
        "C9 00 12 7C 02 10 00 01 00 61 00 00 10 00 02 00 62 00 00",
    ]);
    let regions = K::LIMITS.regions();
    let (groups, individuals) = (regions.group_contacts, regions.individual_contacts);
    assert_eq!([0, 1].map(|place| head(&pair, groups, place)[0]), [0xFF; 2]);
    assert_eq!([0, 1].map(|place| head(&pair, individuals, place)[0]), [0x0F; 2]);
    let again = ["C8 00 0A 60 00 01 10 00 01 00 00", "C9 00 09 40 01 10 00 01 00 00"];
    assert_eq!(pair.commit(&hex_request(&again)), 0);
    assert_eq!(start(&pair, groups), bytes("00 02 80 10 00 01"));
    assert_eq!(head(&pair, groups, 1), bytes("FF 10 00 02"));
    assert_eq!(start(&pair, individuals), bytes("00 02 00 10 00 01"));
    assert_eq!(head(&pair, individuals, 1), bytes("0F 10 00 02"));
    assert_eq!(shown(&mut pair, Table::GroupContacts, 0), number("32820900"));
    assert_eq!(shown(&mut pair, Table::IndividualContacts, 0), number("32820200"));
    assert_eq!(shown(&mut pair, Table::IndividualContacts, 1), stored("b"));
}

fn a_delete_closes_the_gap_and_a_replace_empties_first<K: Tried>() {
    for (contacts, table, list) in lists::<K>() {
        let mut pair = Pair::<K>::fresh();
        assert_eq!(pair.commit(&request(&[contacts(Add, &numbered(0..5))])), 0);
        // An absent address does nothing, and a text does not count.
        let gone = [(0x10_0003, "x"), (0x20_0002, ""), (0x10_0003, "")];
        assert_eq!(pair.commit(&request(&[contacts(Delete, &gone)])), 0);
        assert_eq!(kept(&pair, list), [1, 2, 4, 5]);
        assert_eq!(shown(&mut pair, table, 4), NO_ROW);
        assert_eq!(pair.commit(&request(&[contacts(Add, &numbered(2..3))])), 0);
        assert_eq!(kept(&pair, list), [1, 2, 4, 5, 3]);
        let new = [(0x10_0009, "a"), (0x10_0003, "b"), (0x10_0009, "c")];
        assert_eq!(pair.commit(&request(&[contacts(Replace, &new)])), 0);
        assert_eq!(kept(&pair, list), [9, 3]);
        assert_eq!(shown(&mut pair, table, 0), stored("c"));
        pair.compare_exports();
        assert_eq!(pair.commit(&request(&[contacts(Delete, &[])])), 0);
        assert_eq!(kept(&pair, list), [9, 3]);
        assert_eq!(pair.commit(&request(&[contacts(Replace, &[])])), 0);
        assert!(pair.bytes == Pair::<K>::fresh().bytes);
    }
}

/// By one setting and by many; a known address needs no new place, and a freed one is used.
fn the_65th_has_no_room<K: Tried>() {
    for (contacts, table, list) in lists::<K>() {
        let each = |places: std::ops::Range<u32>| {
            places.map(|place| contacts(Add, &numbered(place..place + 1))).collect::<Vec<_>>()
        };
        let mut pair = Pair::<K>::fresh();
        assert_eq!(pair.told(&request(&[contacts(Add, &numbered(0..65))])), (2, 1));
        assert_eq!(pair.told(&request(&each(0..65))), (2, 65));
        assert_eq!(pair.told(&request(&[contacts(Replace, &numbered(0..65))])), (2, 1));
        assert!(pair.bytes == Pair::<K>::fresh().bytes);
        assert_eq!(pair.told(&request(&each(0..64))), (0, 0));
        let twice = [numbered(0..64), numbered(5..6)].concat();
        let full = pair.bytes.clone();
        for operation in [Add, Replace] {
            assert_eq!(pair.told(&request(&[contacts(operation, &twice)])), (0, 0));
            assert!(pair.bytes == full, "65 entries with 64 addresses");
        }
        let last = CONTACT_ROWS - 1;
        assert!(shown(&mut pair, table, last).is_ok());
        assert_eq!(shown(&mut pair, table, CONTACT_ROWS), NO_ROW);
        let new = contacts(Add, &numbered(70..71));
        assert_eq!(pair.told(&request(std::slice::from_ref(&new))), (2, 1));
        let [absent, known] = [80..81, 3..4].map(|places| contacts(Delete, &numbered(places)));
        assert_eq!(pair.told(&request(&[absent, new.clone()])), (2, 2));
        assert_eq!(pair.told(&request(&[known, new])), (0, 0));
        assert_eq!(kept(&pair, list)[63], 71);
        assert_eq!(kept(&pair, list)[..4], [1, 2, 3, 5]);
        pair.compare_exports();
        pair.compare_rows();
    }
}

/// An address twice is no store, and neither is a count that is not the list's. Places are those of the second slot, but for `at`.
fn bytes_of_contacts<K: Tried>() {
    for (contacts, table, list) in lists::<K>() {
        let is_group = table == Table::GroupContacts;
        let row_of = if is_group { Row::GroupContact } else { Row::IndividualContact };
        let mut pair = Pair::<K>::fresh();
        let two = [(0x10_0001, "a"), (0x10_0002, "b")];
        assert_eq!(pair.commit(&request(&[contacts(Add, &two)])), 0);
        let at = |changes: &[(usize, u8)]| {
            let mut poked = pair.bytes.clone();
            changes.iter().for_each(|&(place, byte)| poked[place] = byte);
            Set::<K>::open(&mut poked).is_ok()
        };
        let (first, second) = (list.slot(0), list.slot(1));
        let opened = |changes: &[(usize, u8)]| {
            at(&changes.iter().map(|&(place, byte)| (second + place, byte)).collect::<Vec<_>>())
        };
        assert!(opened(&[]));
        assert!(!opened(&[(3, 1)]), "one address twice");
        assert!(!opened(&[(3, 1), (0, pair.bytes[second] ^ 1)]), "with other flags");
        let text = layout::text_at(&pair.bytes, K::LIMITS, row_of(1)) + 1 - second;
        assert!(!opened(&[(3, 1), (text, b'c')]), "with another text");
        assert!(opened(&[(text, b'c')]), "another text alone");
        assert!(opened(&[(2, 1), (3, 1)]), "100101");
        assert!(opened(&[(1, 0x11), (3, 1)]), "110001");
        assert!(!opened(&[(1, 0x0F)]) && !opened(&[(3, 0)]), "an address out of range");
        let wrong = if is_group { 0x3F } else { 0x10 };
        assert!(!opened(&[(0, wrong)]), "flags out of range");
        assert!(!opened(&[(list.width, 0x40)]), "a byte behind the list");
        for count in [0, 1, 3, 64, 255] {
            assert!(!at(&[(first - 1, count)]), "count {count}");
        }
        assert!(!at(&[(first - 2, 1)]), "count 258");
    }
}

/// One address in C8, C9, D1 and D2, and one line in CA and D3: each is deleted alone.
fn tables_are_independent<K: Tried>() {
    let adds = [
        "C8 00 0A 60 00 01 10 00 01 00 00",
        "C9 00 09 40 01 10 00 01 00 00",
        "CA 00 09 42 01 23 45 FF 00 00",
        "D1 00 09 60 00 10 00 01 00 00",
        "D2 00 09 40 00 10 00 01 00 00",
        "D3 00 09 42 00 23 45 FF 00 00",
    ];
    let deletes = [
        "C8 00 0A A0 00 01 10 00 01 00 00",
        "C9 00 09 80 01 10 00 01 00 00",
        "CA 00 09 82 01 23 45 FF 00 00",
        "D1 00 09 80 00 10 00 01 00 00",
        "D2 00 09 80 00 10 00 01 00 00",
        "D3 00 09 82 00 23 45 FF 00 00",
    ];
    for (place, delete) in deletes.iter().enumerate() {
        let mut pair = after::<K>(&adds);
        assert_eq!(pair.commit(&hex_request(&[delete])), 0);
        let mut others = adds.to_vec();
        others.remove(place);
        assert!(pair.bytes == after::<K>(&others).bytes, "{delete}");
    }
}
