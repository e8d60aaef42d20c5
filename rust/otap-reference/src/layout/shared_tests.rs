//! The second form of a store, a hand-held's: numbers of units in the slots, and the texts in one area behind all of them.

use super::tests::{held, FULL};
use super::*;
use crate::inputs::pokes::{fit_texts, poke_texts};
use crate::inputs::random::Random;
use crate::inputs::Inputs;
use crate::reference::by_hand::shown;
use crate::reference::commit::{judge_and_commit, REPLY_ROOM};
use crate::reference::limits::{BOTH, HANDHELD, VEHICLE};
use crate::reference::message::Hash;
use crate::reference::plan::{GroupAddress, IndividualAddress};
use crate::reference::screen::{Row, Shown};
use crate::reference::settings::{GroupFlags, IndividualFlags, LineFlags};

const AREA: usize = 2_254;
const SPARE: usize = 6_350;

#[test]
fn counts_stand_before_their_lists() {
    let bytes = bytes(&held(HANDHELD, FULL));
    assert!(is_store(&bytes, HANDHELD));
    // A count, then a group's flags, address and number of units, and at the region's end the last one's.
    assert_eq!(bytes[774..781], [0, 64, 64, 0x10, 0, 1, 1]);
    assert_eq!(bytes[776 + 63 * 5..][..5], [64, 0x10, 0, 64, 1]);
    assert_eq!(bytes[1_096..1_103], [0, 64, 0, 0x10, 0, 1, 1]);
    assert_eq!(bytes[1_098 + 63 * 5..][..5], [0, 0x10, 0, 64, 1]);
    assert_eq!(bytes[1_418..1_422], [0, 64, 0, 241]);
    // The last channel, the count of lines, then the first one's flags, IDtype and digits 0, 0 and 0.
    assert_eq!(bytes[1_546..1_556], [1, 48, 0, 32, 0, 0, 1, 1, 1, 0]);
    // The last line's number of units, then the order of the lines, which stand as their digits go.
    assert_eq!(bytes[1_550 + 31 * 21 + 20..][..4], [1, 1, 2, 3]);
    assert_eq!(bytes[2_252..2_254], [31, 32]);
    // A unit of each of 64, 64 and 32, and then nothing.
    assert_eq!(bytes[2_254..2_574], [0x4E, 0x2D].repeat(160));
    assert!(is_empty(&bytes[2_574..]));
    assert_eq!(bytes.len(), 6_350 + 18_226);
}

/// A set with two rows in each table with texts; a text is the place of its table, and then as many units as the row says, 1 or 2.
fn two_of_each() -> Set {
    let mut set = Set::fresh(HANDHELD);
    let tables = &mut set.tables;
    let text = |table: u16, row: u16| [&[table][..], &vec![row; row.into()]].concat();
    let flags = GroupFlags { attribute: 3, ..GroupFlags::default() };
    let group = |table, row| flags.of(GroupAddress(0x10_0000 + u32::from(row)), text(table, row));
    let individual = |table, row| {
        let address = IndividualAddress(0x20_0000 + u32::from(row));
        IndividualFlags::default().of(address, text(table, row))
    };
    let line = |table, row| Line {
        digits: vec![3 - row as u8],
        flags: LineFlags::default(),
        text: text(table, row),
    };
    (tables.quick_texts[5], tables.quick_texts[63]) = (Some(text(1, 1)), Some(text(1, 2)));
    (tables.status_texts[0], tables.status_texts[95]) = (Some(text(2, 1)), Some(text(2, 2)));
    (tables.groups[3], tables.groups[15]) = (Some(group(3, 1)), Some(group(3, 2)));
    tables.individuals[0] = Some(individual(4, 1));
    tables.individuals[4] = Some(individual(4, 2));
    (tables.line_slots[7], tables.line_slots[8]) = (Some(line(5, 1)), Some(line(5, 2)));
    tables.group_contacts = vec![group(6, 1), group(6, 2)];
    tables.individual_contacts = vec![individual(7, 1), individual(7, 2)];
    tables.lines = vec![line(8, 1), line(8, 2)];
    set
}

/// Where `two_of_each` has its rows.
const ROWS: [[Row; 2]; 8] = [
    [Row::Quick(5), Row::Quick(63)],
    [Row::Status(32), Row::Status(127)],
    [Row::Group(3), Row::Group(15)],
    [Row::Individual(0), Row::Individual(4)],
    [Row::LineSlot(7), Row::LineSlot(8)],
    [Row::GroupContact(0), Row::GroupContact(1)],
    [Row::IndividualContact(0), Row::IndividualContact(1)],
    [Row::Line(0), Row::Line(1)],
];

/// By table and then by row, without ends.
#[test]
fn texts_stand_in_one_order() {
    let set = two_of_each();
    let bytes = bytes(&set);
    assert!(is_store(&bytes, HANDHELD));
    let texts = (1..=8).flat_map(|table| [0, table, 0, 1, 0, table, 0, 2, 0, 2]);
    assert_eq!(bytes[AREA..AREA + 80], texts.collect::<Vec<u8>>());
    assert!(is_empty(&bytes[AREA + 80..]));
    assert_eq!((bytes[22 + 5], bytes[22 + 63]), (2, 3));
    assert_eq!((&bytes[86..88], &bytes[86 + 95 * 2..][..2]), (&[1, 2][..], &[1, 3][..]));
    assert_eq!(bytes[278 + 3 * 5..][..5], [0xC0, 0x10, 0, 1, 2]);
    assert_eq!(bytes[358..363], [0, 0x20, 0, 1, 2]);
    assert_eq!(bytes[438 + 8 * 21..][..4], [0, 0, 2, 0]);
    assert_eq!(bytes[438 + 8 * 21 + 20], 3);
    assert_eq!(bytes[776..786], [0xC0, 0x10, 0, 1, 2, 0xC0, 0x10, 0, 2, 3]);
    assert_eq!(bytes[1_098..1_108], [0, 0x20, 0, 1, 2, 0, 0x20, 0, 2, 3]);
    // PSTN 2, then PSTN 1, which the order has first; the texts stand as the lines do.
    assert_eq!((bytes[1_550 + 20], bytes[1_550 + 41]), (2, 3));
    assert_eq!(bytes[2_222..2_225], [2, 1, 0]);
}

/// The text that the screen shows for a row stands where the numbers of units before it say.
#[test]
fn where_each_text_starts() {
    let set = two_of_each();
    let bytes = bytes(&set);
    let mut at = AREA;
    for row in ROWS.as_flattened() {
        assert_eq!(text_at(&bytes, HANDHELD, *row), at, "{row:?}");
        let Shown::Stored(text) = shown(&set, *row) else { panic!("{row:?} has a text") };
        assert_eq!(bytes[at..][..2 * text.len()], units(&text), "{row:?}");
        at += 2 * text.len();
    }
    assert_eq!(at, AREA + 80);
}

/// In the first form each text has its place, which STORE.md gives.
#[test]
fn where_each_text_starts_in_places() {
    let set = Set { limits: VEHICLE, ..two_of_each() };
    let bytes = bytes(&set);
    let starts = ROWS.map(|rows| rows.map(|row| text_at(&bytes, set.limits, row)));
    let places = [
        [22 + 5 * 46, 22 + 63 * 46],
        [2_966 + 1, 2_966 + 95 * 33 + 1],
        [6_134 + 3 * 36 + 4, 6_134 + 15 * 36 + 4],
        [6_710 + 4, 6_710 + 4 * 36 + 4],
        [7_286 + 7 * 52 + 20, 7_286 + 8 * 52 + 20],
        [8_120 + 4, 8_120 + 36 + 4],
        [10_426 + 4, 10_426 + 36 + 4],
        [13_246 + 20, 13_246 + 52 + 20],
    ];
    assert_eq!(starts, places);
    for (row, at) in ROWS.as_flattened().iter().zip(starts.as_flattened()) {
        let Shown::Stored(text) = shown(&set, *row) else { panic!("{row:?} has a text") };
        assert_eq!(bytes[*at..][..2 * text.len()], units(&text), "{row:?}");
    }
}

/// The example of docs/STORE.md.
#[test]
fn the_example_of_the_page() {
    let mut set = Set::fresh(HANDHELD);
    set.tables.quick_texts[5] = Some(vec![0x41, 0x31]);
    set.tables.status_texts[8] = Some(Vec::new());
    let (flags, text) = (LineFlags::default(), vec![0x5A]);
    set.tables.lines = vec![Line { digits: vec![3], flags, text }];
    let mut wanted = vec![0; 24_576];
    let parts: [(usize, &[u8]); 8] = [
        (11, &[16]),
        (27, &[2]),
        (102, &[1, 0]),
        (1_548, &[0, 1]),
        (1_550, &[0, 0, 4]),
        (1_570, &[1]),
        (2_222, &[1]),
        (2_254, &[0, 0x41, 0, 0x31, 0, 0x5A]),
    ];
    for (at, part) in parts {
        wanted[at..at + part.len()].copy_from_slice(part);
    }
    assert!(bytes(&set) == wanted && is_store(&wanted, HANDHELD));
}

/// A hand-held's store of layout 5, which had the first form: the same where it has no more than what stands before the texts, else mostly none, but at times
/// that of other tables.
#[test]
fn a_handheld_of_the_first_form() {
    let before = Limits { texts: Texts::Placed, ..HANDHELD };
    let both = |tables: &dyn Fn(&mut Set)| {
        [before, HANDHELD].map(|limits| {
            let mut set = Set::fresh(limits);
            set.hash = Hash::Crc([1, 2, 3, 4]);
            set.tables.home.np = 806;
            tables(&mut set);
            bytes(&set)
        })
    };
    let [old, new] = both(&|_| {});
    assert!(old == new && is_store(&old, before));
    let [old, _] = both(&|set| set.tables.quick_texts[2] = Some(vec![0x41]));
    assert!(is_store(&old, before) && !is_store(&old, HANDHELD));
    let [old, _] = both(&|set| set.tables.quick_texts[2] = Some(vec![0x0100]));
    let [_, new] = both(&|set| set.tables.status_texts[46 - 32] = Some(Vec::new()));
    assert!(old == new && is_store(&old, before) && is_store(&old, HANDHELD));
}

/// An empty slot is all 0; an empty status text says that it is there.
#[test]
fn empty_texts_take_nothing() {
    let mut set = Set::fresh(HANDHELD);
    set.tables.status_texts[1] = Some(Vec::new());
    set.tables.status_texts[2] = Some(vec![0x41]);
    let bytes = bytes(&set);
    assert!(is_store(&bytes, HANDHELD));
    assert_eq!(bytes[86..94], [0, 0, 1, 0, 1, 1, 0, 0]);
    assert_eq!(bytes[AREA..AREA + 4], [0, 0x41, 0, 0]);
    assert_eq!(text_at(&bytes, HANDHELD, Row::Status(33)), AREA);
    let with = |place: usize, byte: u8| {
        let mut poked = bytes.clone();
        poked[place] = byte;
        is_store(&poked, HANDHELD)
    };
    // It is there or not, with no other byte, and there are no units of what is not there.
    assert!(with(88, 0) && with(86, 1) && !with(88, 2) && !with(87, 1) && !with(90, 0));
}

/// Every number of units that a slot can say, the area made to fit: up to 23 of a quick text, which is there if it is not 0, and up to 16 of all others.
#[test]
fn how_many_units_a_slot_may_say() {
    let (bytes, regions) = (bytes(&two_of_each()), HANDHELD.regions());
    let last = [5, 0, 3, 0, 7, 0, 0, 0]
        .iter()
        .zip(regions.with_texts())
        .map(|(&place, slots)| slots.slot(place + 1) - 1);
    for (table, at) in last.enumerate() {
        for units in 0..=255 {
            let mut poked = bytes.clone();
            poked[at] = units;
            assert_eq!(is_store(&poked, HANDHELD), units == 2, "{table}: {units}");
            fit_texts(HANDHELD, &mut poked);
            let most = if table == 0 { 23 } else { 16 };
            assert_eq!(is_store(&poked, HANDHELD), units <= most, "{table}: {units}");
        }
    }
}

/// A set whose texts are just the area, or one unit more or fewer: 64 quick texts of 23 units, 35 status texts of 16 and one of so many.
fn with_last(units: usize) -> Set {
    let mut set = Set::fresh(HANDHELD);
    set.tables.quick_texts.fill(Some(vec![0x4E2D; 23]));
    set.tables.status_texts[..35].fill(Some(vec![0x8B66; 16]));
    set.tables.status_texts[35] = Some(vec![0x8B66; units]);
    set
}

#[test]
fn a_full_area() {
    for (units, fits) in [(15, true), (16, true)] {
        let bytes = bytes(&with_last(units));
        assert_eq!(is_store(&bytes, HANDHELD), fits);
        assert_eq!(bytes[SPARE - 2..SPARE + 2] == [0x8B, 0x66, 0, 0], units == 16);
    }
    let full = bytes(&with_last(16));
    // One unit more, with and without a byte for it behind the area.
    let mut more = full.clone();
    more[86 + 2 * 36..][..2].copy_from_slice(&[1, 1]);
    assert!(!is_store(&more, HANDHELD));
    more[SPARE..SPARE + 2].copy_from_slice(&[0x8B, 0x66]);
    assert!(!is_store(&more, HANDHELD));
    // An empty text more is no unit more.
    let mut empty = full.clone();
    empty[86 + 2 * 36] = 1;
    assert!(is_store(&empty, HANDHELD));
    assert_eq!(text_at(&empty, HANDHELD, Row::Status(32 + 36)), SPARE);
}

/// Each unit of the area may be any but 0, and behind the last there is none.
#[test]
fn every_unit_of_the_area() {
    let (bytes, used) = (bytes(&two_of_each()), 80);
    let with = |place: usize, unit: [u8; 2]| {
        let mut poked = bytes.clone();
        poked[AREA + place..AREA + place + 2].copy_from_slice(&unit);
        is_store(&poked, HANDHELD)
    };
    for place in (0..SPARE - AREA + 2).step_by(2) {
        assert_eq!(with(place, [0, 0]), place >= used, "{place}");
        for unit in [[0, 1], [1, 0], [0xD8, 0], [0xFF, 0xFF]] {
            assert_eq!(with(place, unit), place < used, "{place}");
        }
    }
}

/// What was held before leaves no trace, and a store with another text, number of units or byte behind is another set's or none.
#[test]
fn poked_texts() {
    let mut random = Random::new(12);
    for limits in BOTH {
        let (mut stores, mut refused) = (0, 0);
        for seed in 0..20 {
            let (mut inputs, mut set) = (Inputs::new(seed, limits), Set::fresh(limits));
            for _ in 0..15 {
                judge_and_commit(&inputs.message(), &mut set, &mut [0; REPLY_ROOM]);
                let mut poked = bytes(&set);
                poke_texts(&mut random, limits, &mut poked);
                *if is_store(&poked, limits) { &mut stores } else { &mut refused } += 1;
            }
        }
        println!("{stores} still a store, {refused} refused");
        assert!(stores > 50 && refused > 50, "{stores} still a store, {refused} refused");
    }
}
