//! Texts that share one area (document 02, A11): what has room, what the screen shows of it, and what goes to another set; of a vehicle, that no sum binds it.

use otap::{Part, Set, Slice, Table, SCRATCH_ROOM};
use otap_reference::inputs::random::Random;
use otap_reference::inputs::Inputs;
use otap_reference::layout;
use otap_reference::reference::settings::Operation::{Add, Delete, Replace};
use otap_reference::reference::texts::Coding;
use otap_tests::fitting::foreseen;
use otap_tests::for_both_sets;
use otap_tests::pair::Pair;
use otap_tests::sets::Tried;
use otap_tests::texts::{full, holding, lines, many_sets, no_room, quick, status};
use otap_tests::{group_contacts, hex_request, individual_contacts, request, types_of};
use std::collections::BTreeMap;

for_both_sets!(
    just_full_and_one_unit_more,
    room_that_is_freed,
    within_a_setting,
    texts_that_are_overwritten,
    fields_come_before_the_sum,
    every_table_counts,
    the_same_tables_are_the_same_bytes,
    rows_show_their_own_texts,
    rows_of_other_tables_stay,
    just_as_much_as_is_left,
    exports_of_full_sets,
    parts_in_any_order,
);

/// Number and failed ID of these settings, to a full set of its own.
fn told<K: Tried>(settings: &[Vec<u8>]) -> (u8, u8) {
    full::<K>().told(&request(settings))
}

fn just_full_and_one_unit_more<K: Tried>() {
    let pair = full::<K>();
    assert_eq!(pair.set.tables.text_bytes(), 4_096);
    assert!(K::TEXT_BYTES.is_none_or(|area| area == 4_096));
    assert_eq!(told::<K>(&[status(Add, &[(68, 1)])]), no_room::<K>(1));
    assert_eq!(told::<K>(&[status(Add, &[(68, 0)])]), (0, 0));
    assert_eq!(told::<K>(&[quick(Add, &[(5, 1), (63, 23)])]), (0, 0), "which does nothing");
    let mut almost = holding::<K>(35);
    assert_eq!(almost.told(&request(&[status(Add, &[(67, 15)])])), (0, 0));
    assert_eq!(almost.clone().told(&request(&[status(Add, &[(68, 2)])])), no_room::<K>(1));
    assert_eq!(almost.told(&request(&[status(Add, &[(68, 1)])])), (0, 0));
    almost.compare_rows();
    almost.compare_exports();
}

/// In a later message and in the same, but not before.
fn room_that_is_freed<K: Tried>() {
    let (delete, add) = (quick(Delete, &[(20, 0)]), status(Add, &[(68, 16)]));
    let mut pair = full::<K>();
    assert_eq!(pair.told(&request(std::slice::from_ref(&delete))), (0, 0));
    assert_eq!(pair.told(&request(std::slice::from_ref(&add))), (0, 0));
    pair.compare_rows();
    assert_eq!(told::<K>(&[delete.clone(), add.clone()]), (0, 0));
    assert_eq!(told::<K>(&[add.clone(), delete.clone()]), no_room::<K>(1));
    assert_eq!(told::<K>(&[lines(Add, &[(1, 0)]), add, delete]), no_room::<K>(2));
    let shorter: Vec<_> = (32..32 + 38).map(|code| (code, 15)).collect();
    assert_eq!(told::<K>(&[status(Replace, &shorter)]), (0, 0));
    let more: Vec<_> = (32..32 + 39).map(|code| (code, 15)).collect();
    assert_eq!(told::<K>(&[status(Replace, &more)]), no_room::<K>(1));
}

fn within_a_setting<K: Tried>() {
    assert_eq!(told::<K>(&[status(Add, &[(68, 16), (68, 0)])]), (0, 0));
    assert_eq!(told::<K>(&[status(Add, &[(68, 16), (32, 0)])]), (0, 0));
    assert_eq!(told::<K>(&[status(Add, &[(68, 16), (68, 1)])]), no_room::<K>(1));
    assert_eq!(told::<K>(&[lines(Add, &[(1, 16), (2, 0), (1, 0)])]), (0, 0));
    let (long, none) = (status(Add, &[(68, 16)]), status(Add, &[(68, 0)]));
    assert_eq!(told::<K>(&[long, none]), no_room::<K>(1));
}

/// A longer text needs the difference, and a shorter one gives it.
fn texts_that_are_overwritten<K: Tried>() {
    let mut pair = holding::<K>(35);
    assert_eq!(pair.told(&request(&[lines(Add, &[(1, 8), (2, 7)])])), (0, 0));
    assert_eq!(pair.clone().told(&request(&[lines(Add, &[(1, 10)])])), no_room::<K>(1));
    assert_eq!(pair.told(&request(&[lines(Add, &[(1, 9)])])), (0, 0));
    assert_eq!(pair.clone().told(&request(&[lines(Add, &[(2, 8)])])), no_room::<K>(1));
    assert_eq!(pair.told(&request(&[lines(Add, &[(2, 16), (1, 0)])])), (0, 0));
    assert_eq!(pair.set.tables.text_bytes(), 4_096);
    pair.compare_rows();
}

fn fields_come_before_the_sum<K: Tried>() {
    let (over, np_807) = (status(Add, &[(68, 16)]), otap_tests::bytes("CD 00 05 07 E4 E0"));
    let mut code_31 = status(Add, &[(68, 16), (69, 0)]);
    let place = code_31.len() - 3;
    code_31[place] = 31;
    assert_eq!(told::<K>(&[code_31]), (4, 1));
    assert_eq!(told::<K>(&[np_807.clone(), over.clone()]), (4, 1));
    let later = if K::TEXT_BYTES.is_some() { (2, 1) } else { (4, 2) };
    assert_eq!(told::<K>(&[over.clone(), np_807]), later);
    let unknown = if K::TEXT_BYTES.is_some() { (2, 1) } else { (3, 2) };
    assert_eq!(told::<K>(&[over, vec![0xD4]]), unknown);
}

/// A unit in a row of each, to a full area.
fn every_table_counts<K: Tried>() {
    let adds = [
        status(Add, &[(127, 1)]),
        otap_tests::bytes("D1 00 0B 50 0F 10 00 01 00 41 00 00"),
        otap_tests::bytes("D2 00 0B 40 0F 10 00 01 00 41 00 00"),
        otap_tests::bytes("D3 00 09 40 0F 1F 00 41 00 00"),
        group_contacts(Add, 1, &[(0x10_0001, "A")]),
        individual_contacts(Add, &[(0x10_0001, "A")]),
        lines(Add, &[(1, 1)]),
    ];
    for add in &adds {
        assert_eq!(told::<K>(std::slice::from_ref(add)), no_room::<K>(1), "{add:02X?}");
    }
    let mut pair = full::<K>();
    let free = quick(Delete, &[(0, 0)]);
    assert_eq!(pair.told(&request(&[&[free][..], &adds].concat())), (0, 0));
    assert_eq!(pair.told(&request(&[quick(Add, &[(0, 17)])])), no_room::<K>(1));
    let mut other = pair.clone();
    assert_eq!(pair.told(&request(&[quick(Replace, &[]), quick(Add, &[(0, 16)])])), (0, 0));
    assert_eq!(other.told(&request(&[quick(Delete, &[(0, 16)]), quick(Add, &[(0, 16)])])), (0, 0));
    pair.compare_rows();
    other.compare_rows();
}

/// In whatever order they came, and whatever stood there before.
fn the_same_tables_are_the_same_bytes<K: Tried>() {
    let adds = [
        quick(Add, &[(9, 23)]),
        status(Add, &[(127, 16), (40, 3)]),
        otap_tests::bytes("D1 00 0B 60 0F 10 00 01 00 41 00 00"),
        otap_tests::bytes("D3 00 0B 40 03 1F 00 41 00 42 00 00"),
        group_contacts(Add, 3, &[(0x10_0001, "ab")]),
        individual_contacts(Add, &[(0x10_0001, "abc")]),
        lines(Add, &[(1, 5)]),
    ];
    let mut first = Pair::<K>::fresh();
    assert_eq!(first.told(&request(&adds)), (0, 0));
    let mut random = Random::new(4);
    for _ in 0..20 {
        let mut pair = Pair::<K>::fresh();
        let before = [quick(Add, &[(9, 1), (8, 9)]), status(Add, &[(50, 7), (40, 16)])];
        assert_eq!(pair.told(&request(&before)), (0, 0));
        assert_eq!(pair.told(&request(&[quick(Replace, &[]), status(Delete, &[(50, 1)])])), (0, 0));
        let mut left = adds.to_vec();
        while !left.is_empty() {
            let add = left.remove(random.below(left.len()));
            assert_eq!(pair.told(&request(&[add])), (0, 0));
        }
        assert!(pair.bytes == first.bytes);
    }
}

/// What the screen shows of every row: which slice, where, and the bytes.
type Drawn = BTreeMap<(u32, u32), (Slice, usize, Vec<u8>)>;

fn drawn<K: Tried>(pair: &mut Pair<K>) -> Drawn {
    let mut all = Drawn::new();
    let store = pair.store();
    for &table in Table::ALL {
        for row in Set::<K>::places(table) {
            if let Ok(part) = store.row(table, row, &mut [0; SCRATCH_ROOM]) {
                let shown = (part.slice(), part.offset(), part.bytes().to_vec());
                all.insert((table.number(), row), shown);
            }
        }
    }
    all
}

/// No two texts overlap, and together, with those of background groups, they are the sum; a hand-held's stand in its area, which has room for them.
fn rows_show_their_own_texts<K: Tried>() {
    let (mut full, mut rows) = (0, 0);
    many_sets::<K>(K::seeds(9_600, 30), |_, pair| {
        let area = K::LIMITS.regions().area;
        let parts = drawn(pair).into_values().filter(|(slice, ..)| *slice == Slice::Store);
        let mut places: Vec<_> = parts.map(|(_, at, bytes)| at..at + bytes.len()).collect();
        places.sort_by_key(|place| (place.start, place.end));
        assert!(places.is_sorted_by(|one, next| one.end <= next.start));
        let tables = &pair.set.tables;
        let groups = tables.groups.iter().flatten().chain(&tables.group_contacts);
        let hidden = groups.filter(|group| group.attribute == 1).map(|group| 2 * group.text.len());
        let shown: usize = places.iter().map(ExactSizeIterator::len).sum();
        assert_eq!(shown + hidden.sum::<usize>(), tables.text_bytes());
        if let Some(room) = K::TEXT_BYTES {
            assert!(tables.text_bytes() <= room);
            assert!(places.iter().all(|place| area.start <= place.start && place.end <= area.end));
            full += usize::from(tables.text_bytes() == room);
        }
        rows += places.len();
    });
    println!("{rows} rows with texts, {full} full areas");
    assert!(rows > 10_000 / K::SHARE && (full > 50 || K::TEXT_BYTES.is_none()));
}

/// What a message has no setting for shows what it showed, wherever its text has gone.
fn rows_of_other_tables_stay<K: Tried>() {
    // The types by the table of the screen.
    const TYPES: [u8; 8] = [0xCA, 0xCC, 0xD0, 0xD1, 0xD2, 0xC8, 0xC9, 0xD3];
    let (mut same, mut moved) = (0, 0);
    for seed in K::seeds(9_700, 20) {
        let mut inputs = Inputs::new(seed, K::LIMITS);
        let mut pair = Pair::<K>::fresh();
        let mut before = drawn(&mut pair);
        for _ in 0..60 {
            let message = inputs.message();
            let taken = pair.commit(&message) == 0;
            let after = drawn(&mut pair);
            let coding = message.get(5).and_then(|byte| Coding::from_number(byte & 15));
            let types = coding.filter(|_| taken).map_or(Vec::new(), |of| types_of(&message, of));
            let others = |rows: &Drawn| {
                let other = |table: u32| !types.contains(&TYPES[table as usize - 1]);
                let rows = rows.iter().filter(|((table, _), _)| other(*table));
                rows.map(|(row, (slice, at, bytes))| (*row, *slice, *at, bytes.clone()))
                    .collect::<Vec<_>>()
            };
            let (one, two) = (others(&before), others(&after));
            assert_eq!(one.len(), two.len(), "{message:02X?}");
            for (old, new) in one.iter().zip(&two) {
                assert_eq!((old.0, old.1, &old.3), (new.0, new.1, &new.3), "{message:02X?}");
                *if old.2 == new.2 { &mut same } else { &mut moved } += 1;
            }
            before = after;
        }
    }
    println!("{same} rows where they were, {moved} moved");
    assert!(same > 10_000 / K::SHARE);
    assert_eq!(moved > 5_000, K::TEXT_BYTES.is_some(), "texts in places do not move");
}

/// Whatever a set holds: all that is left has room, in a few status texts, and not one unit more.
fn just_as_much_as_is_left<K: Tried>() {
    let mut met = [0; 2];
    many_sets::<K>(K::seeds(9_800, 40), |_, pair| {
        let area = K::TEXT_BYTES.unwrap_or(4_096);
        // Emptied first, so that there are as many rows as it takes.
        let none = status(Replace, &[]);
        assert_eq!(pair.told(&request(&[none])), (0, 0));
        let Some(left) = area.checked_sub(pair.set.tables.text_bytes()) else { return };
        let units = (left / 2).min(95 * 16);
        let mut texts: Vec<_> = (32..).zip(vec![16; units / 16]).collect();
        texts.push((126, units % 16));
        let is_full = units == left / 2;
        let more = if is_full { no_room::<K>(1) } else { (0, 0) };
        let over = [&texts[..], &[(127, 1)]].concat();
        assert_eq!(pair.clone().told(&request(&[status(Replace, &over)])), more);
        assert_eq!(pair.told(&request(&[status(Replace, &texts)])), (0, 0));
        assert_eq!(pair.clone().told(&request(&[status(Add, &[(127, 1)])])), more);
        met[usize::from(is_full)] += 1;
    });
    println!("{met:?}: with room left, full");
    assert!(met[1] > 50 / K::SHARE);
}

/// A fresh set becomes the same, byte by byte but for the hash; a used one does, or it stops where the rules say.
fn exports_of_full_sets<K: Tried>() {
    let mut used = Pair::<K>::fresh();
    let (mut met, mut full) = ([0; 2], 0);
    many_sets::<K>(K::seeds(9_900, 30), |_, pair| {
        full += usize::from(Some(pair.set.tables.text_bytes()) == K::TEXT_BYTES);
        let mut fresh = Pair::<K>::fresh();
        assert_eq!(stops(pair, &mut fresh), None);
        assert!(fresh.bytes[11..] == pair.bytes[11..]);
        fresh.compare_rows();
        let wanted = foreseen(&pair.set, &used.set);
        assert_eq!(stops(pair, &mut used), wanted);
        assert_eq!(used.bytes[11..] == pair.bytes[11..], wanted.is_none());
        assert!(wanted.is_none() || K::TEXT_BYTES.is_some());
        met[usize::from(wanted.is_some())] += 1;
    });
    println!("{met:?}: taken by a used set, refused; {full} of full areas");
    assert!(met[0] > 50 && K::TEXT_BYTES.is_none_or(|_| met[1] > 50 && full > 50));
}

/// The first part that is not taken.
fn stops<K: Tried>(from: &mut Pair<K>, to: &mut Pair<K>) -> Option<(u32, u8, u8)> {
    let mut buffer = vec![0; K::LONGEST_MESSAGE];
    let store = from.store();
    Part::ALL.iter().find_map(|&part| {
        let message = store.export(part, &mut buffer).expect("a part of a store");
        let (number, failed) = to.told(message);
        (number != 0).then_some((part.number(), number, failed))
    })
}

/// To a fresh set the ten parts may go in any order: no table holds more than it will.
fn parts_in_any_order<K: Tried>() {
    many_sets::<K>(K::seeds(9_950, 20), |random, pair| {
        let (mut fresh, mut left) = (Pair::<K>::fresh(), Part::ALL.to_vec());
        let mut buffer = vec![0; K::LONGEST_MESSAGE];
        while !left.is_empty() {
            let part = left.remove(random.below(left.len()));
            let store = pair.store();
            let message = store.export(part, &mut buffer).expect("a part of a store");
            assert_eq!(fresh.told(message), (0, 0), "{part:?}");
        }
        assert!(fresh.bytes[11..] == pair.bytes[11..]);
        assert!(layout::is_store(&fresh.bytes, K::LIMITS));
        assert_eq!(fresh.told(&hex_request(&["CD 00 05 07 E4 C0"])), (0, 0));
    });
}
