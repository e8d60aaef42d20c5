//! The generator reaches every number a message can come to, and every table's edge.

use otap_reference::inputs::{longest_input, Inputs};
use otap_reference::reference::commit::{judge_and_commit, REPLY_ROOM};
use otap_reference::reference::limits::{Limits, Texts};
use otap_reference::reference::message::{first_byte, REQUEST};
use otap_reference::reference::numbers::{BAD_FIELD, NO_ROOM, TAKEN};
use otap_reference::reference::settings::{GroupSlot, Operation, Setting, BACKGROUND};
use otap_reference::reference::tables::{Line, Set, Tables};
use otap_reference::reference::texts::Coding;
use otap_tests::for_both_sets;
use otap_tests::sets::Tried;
use otap_tests::settings_of;
use std::collections::BTreeMap;

for_both_sets!(
    every_number_comes_often,
    tables_fill_and_messages_grow_long,
    contacts_and_line_slots_come_often,
    areas_fill,
    numbers_of_both_idtypes_come_often,
    every_coding_type_comes_often,
    the_same_seed_gives_the_same_messages,
);

const SEEDS: u64 = 200;
const MESSAGES: usize = 200;
const NUMBERS: [u8; 9] = [0, 1, 2, 3, 4, 5, 12, 13, 14];

fn every_number_comes_often<K: Tried>() {
    let mut counts: BTreeMap<u8, usize> = BTreeMap::new();
    let mut later_places = BTreeMap::new();
    for seed in K::seeds(0, SEEDS) {
        let mut inputs = Inputs::new(seed, K::LIMITS);
        let mut set = Set::fresh(K::LIMITS);
        for _ in 0..MESSAGES {
            let answer = judge_and_commit(&inputs.message(), &mut set, &mut [0; REPLY_ROOM]);
            *counts.entry(answer.number).or_default() += 1;
            *later_places.entry((answer.number, answer.failed.min(2))).or_insert(0) += 1;
        }
    }
    println!("{counts:?}");
    println!("number, failed ID (2 for all above): {later_places:?}");
    for number in NUMBERS {
        assert!(
            counts.get(&number).is_some_and(|&count| count > 400 / K::SHARE),
            "number {number}"
        );
    }
    for place in [(2, 1), (2, 2), (3, 1), (3, 2), (4, 0), (4, 1), (4, 2)] {
        assert!(later_places.get(&place).is_some_and(|&count| count > 100 / K::SHARE), "{place:?}");
    }
}

fn tables_fill_and_messages_grow_long<K: Tried>() {
    let (mut lines, mut channels, mut quick, mut longest, mut over) = (0, 0, 0, 0, 0);
    for seed in K::seeds(0, SEEDS) {
        let mut inputs = Inputs::new(seed, K::LIMITS);
        let mut set = Set::fresh(K::LIMITS);
        for _ in 0..MESSAGES {
            let message = inputs.message();
            let answer = judge_and_commit(&message, &mut set, &mut [0; REPLY_ROOM]);
            assert!(message.len() <= longest_input(K::LIMITS));
            longest += usize::from(message.len() == K::LIMITS.message && answer.number == 0);
            over += usize::from(message.len() > K::LIMITS.message);
            lines += usize::from(set.tables.lines.len() == K::MOST_LINES);
            channels += usize::from(set.tables.channels.len() == K::MOST_CHANNELS);
            quick += usize::from(set.tables.quick_texts.iter().all(Option::is_some));
        }
    }
    println!("states: {lines} full lines, {channels} full channels, {quick} full quick texts");
    println!("messages: {longest} taken of 4,096 bytes, {over} longer");
    assert!(
        lines > 1_000 / K::SHARE
            && channels > 1_000 / K::SHARE
            && quick > 100 / K::SHARE
            && longest > 100 / K::SHARE
            && over > 100 / K::SHARE
    );
}

/// Both lists of contacts are often full, with a known address overwritten then, and one in the middle deleted; line slots often change.
fn contacts_and_line_slots_come_often<K: Tried>() {
    let (mut full, mut overwritten, mut deleted, mut hidden, mut slots) = ([0; 2], 0, 0, 0, 0);
    for seed in K::seeds(0, SEEDS) {
        let mut inputs = Inputs::new(seed, K::LIMITS);
        let mut set = Set::fresh(K::LIMITS);
        for _ in 0..MESSAGES {
            let slots_before = set.tables.line_slots.clone();
            let before = set.tables.group_contacts.clone();
            judge_and_commit(&inputs.message(), &mut set, &mut [0; REPLY_ROOM]);
            let after = &set.tables.group_contacts;
            let moved = !after.is_empty() && before.last() == after.last();
            full[0] += usize::from(after.len() == 64);
            full[1] += usize::from(set.tables.individual_contacts.len() == 64);
            overwritten += usize::from(before.len() == 64 && after.len() == 64 && before != *after);
            deleted += usize::from(moved && after.len() < before.len());
            let shown = |group: &GroupSlot| group.attribute != BACKGROUND;
            hidden += usize::from(after.iter().any(shown) && !after.iter().all(shown));
            slots += usize::from(set.tables.line_slots != slots_before);
        }
    }
    println!("{full:?} full lists, {overwritten} changed when full, {deleted} with one deleted");
    println!("{hidden} with background groups among others, {slots} with other line slots");
    assert!(
        full.iter().all(|&full| full > 1_000 / K::SHARE)
            && overwritten > 200 / K::SHARE
            && deleted > 200 / K::SHARE
    );
    assert!(hidden > 1_000 / K::SHARE && slots > 1_000 / K::SHARE);
}

/// A hand-held's area is often full, or over it only for the sum, and at times only within a setting; a vehicle holds more than that.
fn areas_fill<K: Tried>() {
    let (mut full, mut by_sum, mut within, mut more) = (0, 0, 0, 0);
    let unbound = Limits { texts: Texts::Placed, ..K::LIMITS };
    for seed in K::seeds(0, SEEDS) {
        let mut inputs = Inputs::new(seed, K::LIMITS);
        let mut set = Set::fresh(K::LIMITS);
        for _ in 0..MESSAGES {
            let message = inputs.message();
            let before = Set { limits: unbound, ..set.clone() };
            let [said, other] = [&mut set, &mut before.clone()]
                .map(|set| judge_and_commit(&message, set, &mut [0; REPLY_ROOM]).number);
            by_sum += usize::from((said, other) == (NO_ROOM, TAKEN));
            let passes = said == TAKEN && passes_within(&message, before.tables, unbound);
            within += usize::from(passes);
            let bytes = set.tables.text_bytes();
            full += usize::from(bytes == 4_096);
            more += usize::from(bytes > 4_096);
        }
    }
    println!("{full} full areas, {by_sum} refused by the sum, {within} over it within a setting");
    println!("{more} with more than that");
    if K::TEXT_BYTES.is_some() {
        assert!(full > 1_000 && by_sum > 200 && within > 50 && more == 0);
    } else {
        assert!(by_sum == 0 && more > 1_000 / K::SHARE);
    }
}

/// Whether a request that is taken would pass 4,096 bytes if the sum were judged after each entry of its status texts.
fn passes_within(message: &[u8], mut tables: Tables, limits: Limits) -> bool {
    let coding = Coding::from_number(message[5] & 15);
    let Some(coding) = coding.filter(|_| message[6] == first_byte(REQUEST)) else { return false };
    let mut passes = false;
    for (setting, _) in settings_of(message, coding) {
        if let Setting::StatusTexts { operation: Operation::Add, entries } = &setting {
            for entry in entries {
                let (operation, entries) = (Operation::Add, vec![entry.clone()]);
                let one = Setting::StatusTexts { operation, entries };
                tables.apply(one, limits).expect("each has its place");
                passes |= tables.text_bytes() > 4_096;
            }
        } else {
            tables.apply(setting, limits).expect("it was taken");
        }
    }
    passes
}

/// One number often stands with both IDtypes, in full tables too, and each of the two lines is overwritten and deleted alone.
fn numbers_of_both_idtypes_come_often<K: Tried>() {
    let (mut full, mut overwritten, mut deleted) = (0, 0, 0);
    for seed in K::seeds(0, SEEDS) {
        let mut inputs = Inputs::new(seed, K::LIMITS);
        let mut set = Set::fresh(K::LIMITS);
        for _ in 0..MESSAGES {
            let before = set.tables.lines.clone();
            judge_and_commit(&inputs.message(), &mut set, &mut [0; REPLY_ROOM]);
            let after = &set.tables.lines;
            full += usize::from(after.len() == K::MOST_LINES && !of_both_idtypes(after).is_empty());
            for [pstn, pabx] in of_both_idtypes(&before) {
                let number = pstn.digits.clone();
                let left: Vec<_> = after.iter().filter(|line| line.digits == number).collect();
                let stayed = after.contains(&pstn) != after.contains(&pabx);
                overwritten += usize::from(stayed && left.len() == 2);
                deleted += usize::from(stayed && left.len() == 1);
            }
        }
    }
    println!("{full} full tables, {overwritten} overwritten and {deleted} deleted alone");
    assert!(
        full > 1_000 / K::SHARE && overwritten > 1_000 / K::SHARE && deleted > 1_000 / K::SHARE
    );
}

/// Each two lines with one number, PSTN first.
fn of_both_idtypes(lines: &[Line]) -> Vec<[Line; 2]> {
    let pstn = lines.iter().filter(|line| !line.flags.pabx);
    let with_other = pstn.filter_map(|line| {
        let other = lines.iter().find(|other| other.key() == (true, &line.digits))?;
        Some([line.clone(), other.clone()])
    });
    with_other.collect()
}

/// Both coding types change texts often. The others are refused as such, and no setting is looked at.
fn every_coding_type_comes_often<K: Tried>() {
    let (mut changed, mut refused) = ([0; 16], [[0; 2]; 16]);
    for seed in K::seeds(0, SEEDS) {
        let mut inputs = Inputs::new(seed, K::LIMITS);
        let mut set = Set::fresh(K::LIMITS);
        for _ in 0..MESSAGES {
            let message = inputs.message();
            let before = set.tables.clone();
            let answer = judge_and_commit(&message, &mut set, &mut [0; REPLY_ROOM]);
            if answer.length == 0 || message[6] != first_byte(REQUEST) {
                continue;
            }
            let coding = usize::from(message[5] & 0x0F);
            changed[coding] += usize::from(!set.tables.texts().eq(before.texts()));
            let bad_field = usize::from(answer.number == BAD_FIELD);
            refused[coding][usize::from(answer.failed.min(1))] += bad_field;
        }
    }
    println!("texts changed, by coding type: {changed:?}");
    println!("refused with 4, failed ID 0 and above, by coding type: {refused:?}");
    for coding in 0..16 {
        let [without_place, with_place] = refused[coding];
        let known = matches!(coding, 4 | 7);
        assert_eq!((changed[coding] > 2_000 / K::SHARE, changed[coding] > 0), (known, known));
        assert_eq!((with_place > 2_000 / K::SHARE, with_place > 0), (known, known), "{coding}");
        assert!(without_place > 10 / K::SHARE, "{coding}");
    }
}

fn the_same_seed_gives_the_same_messages<K: Tried>() {
    let mut first = Inputs::new(3, K::LIMITS);
    let mut second = Inputs::new(3, K::LIMITS);
    for _ in 0..50 {
        assert_eq!(first.record(), second.record());
    }
}
