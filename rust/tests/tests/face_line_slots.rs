//! Line slots, and the parts of an export that came with the contact lists: the archive behind the face against the reference, and by hand.

use otap::{Part, Refusal, Set, Slice, Table, SCRATCH_ROOM};
use otap_reference::layout;
use otap_reference::reference::screen::Row;
use otap_reference::reference::settings::Operation::Add;
use otap_tests::for_both_sets;
use otap_tests::pair::Pair;
use otap_tests::sets::Tried;
use otap_tests::{bytes, group_contacts, hex_request, individual_contacts, request};

for_both_sets!(
    slots_by_their_index,
    slots_are_never_full,
    fields_of_line_slots,
    lengths_of_line_slots,
    parts_of_a_fresh_store,
    parts_of_contacts_and_slots,
    full_tables_go_to_another_store,
);

/// Adds extension 2345 to slot 3, no text.
const EXTENSION: &str = "D3 00 09 42 03 23 45 FF 00 00";

fn after<K: Tried>(settings: &[&str]) -> Pair<K> {
    let mut pair = Pair::<K>::fresh();
    assert_eq!(pair.commit(&hex_request(settings)), 0, "{settings:?}");
    pair.compare_exports();
    pair.compare_rows();
    pair
}

fn told<K: Tried>(setting: &str) -> (u8, u8) {
    Pair::<K>::fresh().told(&hex_request(&[setting]))
}

fn shown<K: Tried>(pair: &mut Pair<K>, row: u32) -> Result<(Slice, String), Refusal> {
    let mut scratch = [0; SCRATCH_ROOM];
    let store = pair.store();
    let row = store.row(Table::LineSlots, row, &mut scratch)?;
    let units: Vec<u16> = row.units().collect();
    Ok((row.slice(), String::from_utf16(&units).expect("characters")))
}

fn slots_by_their_index<K: Tried>() {
    let mut pair = after::<K>(&[EXTENSION, "D3 00 09 7C 0F 1F 00 41 00 00"]);
    assert_eq!(shown(&mut pair, 3), Ok((Slice::Scratch, "2345".into())));
    assert_eq!(shown(&mut pair, 15), Ok((Slice::Store, "A".into())));
    for absent in [0, 2, 4, 14, 16] {
        assert_eq!(shown(&mut pair, absent), Err(Refusal::NoSuchRow));
    }
    // Flags, IDtype and digits, each digit one more than itself.
    let slots = K::LIMITS.regions().line_slots;
    assert_eq!(pair.bytes[slots.slot(3)..][..7], [0, 1, 3, 4, 5, 6, 0]);
    assert_eq!(pair.bytes[slots.slot(15)..][..4], [15, 0, 2, 0]);
    let text = layout::text_at(&pair.bytes, K::LIMITS, Row::LineSlot(15));
    assert_eq!(pair.bytes[text..][..4], bytes("00 41 00 00"));
    // Overwritten, number and all; then emptied by a delete, whose number is not the slot's.
    assert_eq!(pair.commit(&hex_request(&["D3 00 09 40 03 1F 00 62 00 00"])), 0);
    assert_eq!(shown(&mut pair, 3), Ok((Slice::Store, "b".into())));
    let empty = ["D3 00 07 80 03 0F 00 00", "D3 00 07 80 04 0F 00 00"];
    assert_eq!(pair.commit(&hex_request(&empty)), 0);
    assert_eq!(shown(&mut pair, 3), Err(Refusal::NoSuchRow));
    assert!(pair.bytes == after::<K>(&["D3 00 09 7C 0F 1F 00 41 00 00"]).bytes);
}

/// One number may stand in every slot, and no add finds them full.
fn slots_are_never_full<K: Tried>() {
    let all: Vec<String> =
        (0..16).map(|index| format!("D3 00 07 40 {index:02X} 1F 00 00")).collect();
    let all: Vec<&str> = all.iter().map(String::as_str).collect();
    let mut pair = after::<K>(&all);
    assert_eq!(pair.commit(&hex_request(&all)), 0);
    assert!((0..16).all(|row| shown(&mut pair, row) == Ok((Slice::Scratch, "1".into()))));
}

fn fields_of_line_slots<K: Tried>() {
    for (setting, number) in [
        ("D3 00 07 C0 03 1F 00 00", 4),    // operation 11
        ("D3 00 07 00 03 1F 00 00", 4),    // operation 00
        ("D3 00 07 80 03 0F 00 00", 0),    // a delete, with the number 0
        ("D3 00 07 80 03 FF 00 00", 4),    // without a number
        ("D3 00 07 80 03 AF 00 00", 4),    // with no digit
        ("D3 00 07 40 03 FF 00 00", 4),    // an add without a number
        ("D3 00 07 40 0F 1F 00 00", 0),    // the last index
        ("D3 00 07 41 F3 1F 00 00", 0),    // reserved bits
        ("D3 00 08 40 03 12 F0 00 00", 4), // no fill
        ("D3 00 06 40 03 1F 00", 4),       // a text of one byte
        ("D3 00 05 40 03 1F", 4),
    ] {
        assert_eq!(told::<K>(setting), (number, u8::from(number != 0)), "{setting}");
    }
    assert!(after::<K>(&["D3 00 09 43 F3 23 45 FF 00 00"]).bytes == after::<K>(&[EXTENSION]).bytes);
}

/// The most is 48: 18 digits and 16 units.
fn lengths_of_line_slots<K: Tried>() {
    let setting = |digits: usize, units: usize| {
        let pairs = "11 ".repeat(digits / 2) + ["FF", "1F"][digits % 2];
        let length = 4 + digits / 2 + 1 + 2 * units + 2;
        format!("D3 00 {length:02X} 40 0F {pairs}{} 00 00", " 4E 2D".repeat(units))
    };
    assert_eq!(bytes(&setting(18, 16))[2], 48);
    for (digits, units, number) in [
        (18, 16, 0),
        (17, 16, 0),
        (1, 0, 0),
        (18, 0, 0),
        (18, 17, 4),
        (19, 0, 4),
        (19, 16, 4),
        (1, 17, 4),
    ] {
        assert_eq!(told::<K>(&setting(digits, units)).0, number, "{digits} digits, {units} units");
    }
    let mut pair = after::<K>(&[&setting(18, 0)]);
    assert_eq!(shown(&mut pair, 15), Ok((Slice::Scratch, "1".repeat(18))));
}

fn parts_of_a_fresh_store<K: Tried>() {
    let mut pair = Pair::<K>::fresh();
    let mut buffer = vec![0; K::LONGEST_MESSAGE];
    let store = pair.store();
    let mut part = |part| store.export(part, &mut buffer).expect("a part of a store").to_vec();
    let groups = bytes("02 02 00 0A 08 07 08 01 C8 00 05 D0 00 00");
    assert_eq!(part(Part::GroupContacts), groups);
    let individuals = bytes("02 02 00 09 08 07 08 01 C9 00 04 C0 00");
    assert_eq!(part(Part::IndividualContacts), individuals);
    let slots = part(Part::LineSlots);
    assert_eq!(slots[..8], bytes("02 02 00 84 08 07 08 10"));
    for (index, setting) in slots[8..].chunks(8).enumerate() {
        assert_eq!(setting, bytes(&format!("D3 00 07 80 {index:02X} 0F 00 00")));
    }
    for absent in [0, 11, 12, 0x100, 0x108, u32::MAX] {
        assert_eq!(K::otap_export(absent, store.bytes(), &mut buffer), 16, "part {absent}");
    }
}

/// Flags stand once a setting, so that each contact has its own.
fn parts_of_contacts_and_slots<K: Tried>() {
    let mut pair = after::<K>(&[
        "C8 00 0F 5F C0 02 10 00 01 00 00 FF FF FF 00 00",
        "C8 00 0C 68 40 01 10 00 02 00 41 00 00",
        "C9 00 09 6C 01 10 00 01 00 00",
        "D3 00 0C 5E 01 12 3F 4E 2D 00 41 00 00",
    ]);
    let store = pair.store();
    let mut buffer = vec![0; K::LONGEST_MESSAGE];
    let mut part = |part| store.export(part, &mut buffer).expect("a part of a store")[8..].to_vec();
    let groups = "C8 00 05 D0 00 00 C8 00 0A 5F C0 01 10 00 01 00 00 \
        C8 00 0A 5F C0 01 FF FF FF 00 00 C8 00 0C 68 40 01 10 00 02 00 41 00 00";
    assert_eq!(part(Part::GroupContacts), bytes(groups));
    let individuals = "C9 00 04 C0 00 C9 00 09 6C 01 10 00 01 00 00";
    assert_eq!(part(Part::IndividualContacts), bytes(individuals));
    let slots = "D3 00 07 80 00 0F 00 00 D3 00 0C 5E 01 12 3F 4E 2D 00 41 00 00 \
        D3 00 07 80 02 0F 00 00";
    assert_eq!(part(Part::LineSlots)[..29], bytes(slots));
}

/// So many units are the longest texts that all three tables have room for when they are full: of 144, 14 units are 4,032 bytes.
fn longest<K: Tried>() -> usize {
    match K::TEXT_BYTES {
        None => 16,
        Some(area) => area / (2 * (64 + 64 + 16)),
    }
}

/// All three tables full, of numbers of the greatest length and the longest texts that fit.
fn full<K: Tried>() -> Pair<K> {
    let mut pair = Pair::<K>::fresh();
    let text = "y".repeat(longest::<K>());
    let contacts: Vec<(u32, &str)> = (1..65).map(|place| (0x10_0000 + place, &text[..])).collect();
    let lists = [group_contacts(Add, 1, &contacts), individual_contacts(Add, &contacts)];
    for setting in lists {
        assert_eq!(pair.commit(&request(&[setting])), 0);
    }
    let (digits, units) = ("99 ".repeat(9), "00 79 ".repeat(longest::<K>()));
    let length = 16 + 2 * longest::<K>();
    let slot =
        |index| bytes(&format!("D3 00 {length:02X} 4E {index:02X} {digits} FF {units} 00 00"));
    assert_eq!(pair.commit(&request(&(0..16).map(slot).collect::<Vec<_>>())), 0);
    pair
}

/// From fresh to full and back: the other store has the same tables then, background groups too.
fn full_tables_go_to_another_store<K: Tried>() {
    let mut full = full::<K>();
    for table in [Table::IndividualContacts, Table::LineSlots] {
        assert_eq!(full.show_into(table.number(), 15, SCRATCH_ROOM), 0);
    }
    assert_eq!(full.show_into(Table::GroupContacts.number(), 15, SCRATCH_ROOM), 17);
    let lengths = [Part::GroupContacts, Part::IndividualContacts, Part::LineSlots].map(|part| {
        let store = full.store();
        store.export(part, &mut vec![0; K::LONGEST_MESSAGE]).expect("a part of a store").len()
    });
    let text = 2 * longest::<K>();
    let each = [11 + text, 10 + text, 17 + text];
    assert_eq!(lengths, [8 + 6 + 64 * each[0], 8 + 5 + 64 * each[1], 8 + 16 * each[2]]);
    for (from, into) in [(&full, &Pair::<K>::fresh()), (&Pair::<K>::fresh(), &full)] {
        let (mut bytes, mut other) = (from.bytes.clone(), into.clone());
        let store = Set::<K>::lent(&mut bytes);
        for &part in Part::ALL {
            let mut buffer = vec![0; K::LONGEST_MESSAGE];
            assert_eq!(
                other.commit(store.export(part, &mut buffer).expect("a part of a store")),
                0
            );
        }
        assert!(other.bytes == from.bytes);
    }
}
