//! Which bytes are a store: those that messages make, those that docs/STORE.md allows, and no others.

use otap::{Outcome, Part, Set, Table};
use otap::{MOST_DIGITS, REPLY_ROOM, SCRATCH_ROOM};
use otap_reference::inputs::pokes::{
    fit_texts, poke_count, poke_line_slot, poke_list, poke_order, poke_texts,
};
use otap_reference::inputs::random::Random;
use otap_reference::inputs::Inputs;
use otap_reference::layout::{self, Slots, COUNT, MEMBER_KEY};
use otap_reference::reference::message::{query, request, Hash};
use otap_reference::reference::queries;
use otap_reference::reference::settings::{LastItem, Setting};
use otap_tests::for_both_sets;
use otap_tests::pair::{commit_judged, number_of, patterned, Pair};
use otap_tests::sets::Tried;

for_both_sets!(
    what_messages_make_is_a_store_and_made_again,
    damaged_bytes_are_refused_or_are_a_store,
    damaged_slots_are_refused_or_are_a_store,
    poked_counts_are_refused,
    poked_orders_are_refused,
    poked_line_slots_are_refused_or_are_a_store,
    poked_texts_are_refused_or_are_a_store,
    addresses_of_one_sum_are_told_apart,
    every_byte_of_a_fresh_store,
    bytes_of_no_store,
);

/// The numbers of every kind of call on these bytes, which must agree on whether they are a store.
fn is_store<K: Tried>(bytes: &mut [u8]) -> bool {
    let before = bytes.to_vec();
    let mut store = Set::<K>::lent(bytes);
    let (asked, no_line) = (query(&Hash::Nothing), K::MOST_LINES as u32);
    let taken = commit_judged(&mut store, &asked, &mut [0; REPLY_ROOM]).number();
    let export = |part: &Part| number_of(&store.export(*part, &mut vec![0; K::LONGEST_MESSAGE]));
    let exports: Vec<u8> = Part::ALL.iter().map(export).collect();
    let shown = number_of(&store.row(Table::Lines, no_line, &mut [0; SCRATCH_ROOM]));
    let checked = number_of(&store.check_row(Table::Lines, no_line, &[0; SCRATCH_ROOM]));
    let counted = number_of(&store.counts());
    let called = number_of(&store.line_of(otap::PABX, &[1]));
    let types = queries::query(&[0xCD]);
    let reported = number_of(&store.report(&types, 1, &mut vec![0; K::LONGEST_MESSAGE]));
    let behind = [
        number_of(&store.entry(Table::Lines, no_line)),
        number_of(&store.entry_digits(Table::Lines, no_line, &mut [0; MOST_DIGITS])),
        number_of(&store.channel(K::MOST_CHANNELS as u32)),
    ];
    let fixed = [
        number_of(&store.emergency_key()),
        number_of(&store.home_numbers()),
        number_of(&store.system_code()),
    ];
    let opened = number_of(&Set::<K>::open(bytes));
    let (done, number) = if taken == 11 { (11, 11) } else { (0, 17) };
    assert_eq!((exports, shown, checked), (vec![done; Part::ALL.len()], number, number));
    assert_eq!([counted, called, reported, opened], [done; 4]);
    assert_eq!((behind, fixed), ([number; 3], [done; 3]));
    assert!(*bytes == before, "none of these calls changes the bytes");
    assert_eq!(taken, if layout::is_store(bytes, K::LIMITS) { 5 } else { 11 });
    taken == 5
}

/// The hash kept, as the reply to a query without one carries it.
fn kept_hash<K: Tried>(store: &Set<K>) -> Hash {
    let mut buffer = [0; REPLY_ROOM];
    let answer = store.judge(&query(&Hash::Nothing), &mut buffer);
    let value = &answer.reply[10..];
    match answer.reply[9] {
        0 => Hash::Nothing,
        1 => Hash::Crc(value.try_into().expect("4 bytes")),
        _ => Hash::Stamped(value.try_into().expect("10 bytes")),
    }
}

/// The only bytes with the same contents: a fresh store to which the exported parts and the same hash are committed.
fn made_again<K: Tried>(bytes: &mut [u8]) -> Vec<u8> {
    let store = Set::<K>::lent(bytes);
    let mut again = patterned(K::STORE_SIZE);
    let mut other = Set::<K>::start(&mut again).expect("the size is right");
    for &part in Part::ALL {
        let mut buffer = vec![0; K::LONGEST_MESSAGE];
        let message = store.export(part, &mut buffer).expect("a part of a store");
        let outcome = commit_judged(&mut other, message, &mut [0; REPLY_ROOM]).outcome;
        assert_eq!(outcome, Outcome::Taken);
    }
    let last = LastItem { reboot: false, reply: false, hash: kept_hash(&store) };
    let message = request(&[Setting::Last(last).write()]);
    let outcome = commit_judged(&mut other, &message, &mut [0; REPLY_ROOM]).outcome;
    assert_eq!(outcome, Outcome::Taken);
    again
}

fn grown<K: Tried>(seed: u64, messages: usize) -> Pair<K> {
    let mut inputs = Inputs::new(seed, K::LIMITS);
    let mut pair = Pair::<K>::fresh();
    for _ in 0..messages {
        pair.commit(&inputs.message());
    }
    pair
}

fn what_messages_make_is_a_store_and_made_again<K: Tried>() {
    for seed in K::seeds(5_000, 100) {
        let mut pair = grown::<K>(seed, 30);
        assert!(is_store::<K>(&mut pair.bytes));
        assert!(made_again::<K>(&mut pair.bytes) == pair.bytes, "seed {seed}");
    }
}

/// A damaged store is refused by every call, or it is exactly the bytes of the contents that it shows.
fn damaged_bytes_are_refused_or_are_a_store<K: Tried>() {
    let mut random = Random::new(5);
    let (mut stores, mut refused) = (0, 0);
    for seed in K::seeds(5_200, 30) {
        let pair = grown::<K>(seed, 40);
        for _ in 0..1_000 {
            let mut bytes = pair.bytes.clone();
            let place = random.below(K::STORE_SIZE);
            bytes[place] = match random.below(4) {
                0 => bytes[place] ^ 1 << random.below(8),
                1 => random.pick(&[0, 1, 2, 0xFF]),
                2 => bytes[place].wrapping_add(1),
                _ => random.bits(8) as u8,
            };
            if is_store::<K>(&mut bytes) {
                assert!(made_again::<K>(&mut bytes) == bytes, "seed {seed} byte {place}");
                stores += 1;
            } else {
                refused += 1;
            }
        }
    }
    println!("{stores} still a store, {refused} refused");
    assert!(stores > 1_000 / K::SHARE && refused > 1_000 / K::SHARE);
}

/// The tables that have slots.
fn slots<K: Tried>() -> Vec<Slots> {
    let regions = K::LIMITS.regions();
    regions.with_texts().into_iter().chain([regions.channels]).collect()
}

/// Slots copied over others, emptied or exchanged: gaps, equal keys, and entries of another order. Half of the time a shared area follows.
fn damaged_slots_are_refused_or_are_a_store<K: Tried>() {
    let mut random = Random::new(6);
    let (mut stores, mut refused) = (0, 0);
    for seed in K::seeds(5_300, 30) {
        let pair = grown::<K>(seed, 40);
        for _ in 0..300 {
            let mut bytes = pair.bytes.clone();
            let slots = random.pick(&slots::<K>());
            let [from, to] = [(); 2].map(|()| slots.slot(random.below(slots.places)));
            let size = slots.width;
            match random.below(3) {
                0 => bytes.copy_within(from..from + size, to),
                1 => bytes[to..to + size].fill(0),
                _ => (0..size).for_each(|place| bytes.swap(from + place, to + place)),
            }
            if random.flag() {
                fit_texts(K::LIMITS, &mut bytes);
            }
            if is_store::<K>(&mut bytes) {
                assert!(
                    made_again::<K>(&mut bytes) == bytes,
                    "seed {seed} slots at {from} and {to}"
                );
                stores += 1;
            } else {
                refused += 1;
            }
        }
    }
    println!("{stores} still a store, {refused} refused");
    assert!(stores > 1_000 / K::SHARE && refused > 500 / K::SHARE);
}

/// A false count is refused by every call, of whatever list; the list may change only together with its count.
fn poked_counts_are_refused<K: Tried>() {
    let mut random = Random::new(7);
    let (mut stores, mut refused) = (0, 0);
    for seed in K::seeds(5_400, 30) {
        let pair = grown::<K>(seed, 40);
        for turn in 0..300 {
            let mut bytes = pair.bytes.clone();
            if turn % 2 == 0 {
                poke_count(&mut random, K::LIMITS, &mut bytes);
                assert_eq!(
                    is_store::<K>(&mut bytes),
                    bytes == pair.bytes,
                    "seed {seed} turn {turn}"
                );
            } else {
                poke_list(&mut random, K::LIMITS, &mut bytes);
                if is_store::<K>(&mut bytes) {
                    assert!(made_again::<K>(&mut bytes) == bytes, "seed {seed} turn {turn}");
                    stores += 1;
                } else {
                    refused += 1;
                }
            }
        }
    }
    println!("{stores} still a store, {refused} refused");
    assert!(stores > 500 / K::SHARE && refused > 500 / K::SHARE);
}

/// The lines have one order, and with another every call refuses the bytes.
fn poked_orders_are_refused<K: Tried>() {
    let mut random = Random::new(9);
    let (mut stores, mut refused) = (0, 0);
    for seed in K::seeds(5_600, 30) {
        let pair = grown::<K>(seed, 40);
        for turn in 0..300 {
            let mut bytes = pair.bytes.clone();
            poke_order(&mut random, K::LIMITS, &mut bytes);
            let is_store = is_store::<K>(&mut bytes);
            assert_eq!(is_store, bytes == pair.bytes, "seed {seed} turn {turn}");
            *if is_store { &mut stores } else { &mut refused } += 1;
        }
    }
    println!("{stores} still a store, {refused} refused");
    assert!(stores > 200 / K::SHARE && refused > 5_000 / K::SHARE);
}

/// Line slots copied from others or from a line contact, emptied, or changed in a byte.
fn poked_line_slots_are_refused_or_are_a_store<K: Tried>() {
    let mut random = Random::new(8);
    let (mut stores, mut refused) = (0, 0);
    for seed in K::seeds(5_500, 30) {
        let pair = grown::<K>(seed, 40);
        for turn in 0..300 {
            let mut bytes = pair.bytes.clone();
            poke_line_slot(&mut random, K::LIMITS, &mut bytes);
            if is_store::<K>(&mut bytes) {
                assert!(made_again::<K>(&mut bytes) == bytes, "seed {seed} turn {turn}");
                stores += 1;
            } else {
                refused += 1;
            }
        }
    }
    println!("{stores} still a store, {refused} refused");
    assert!(stores > 1_000 / K::SHARE && refused > 500 / K::SHARE);
}

/// Texts that are other ones, that have another length, or that leave a byte behind.
fn poked_texts_are_refused_or_are_a_store<K: Tried>() {
    let mut random = Random::new(10);
    let (mut stores, mut refused) = (0, 0);
    for seed in K::seeds(5_700, 30) {
        let pair = grown::<K>(seed, 40);
        for turn in 0..300 {
            let mut bytes = pair.bytes.clone();
            poke_texts(&mut random, K::LIMITS, &mut bytes);
            if is_store::<K>(&mut bytes) {
                assert!(made_again::<K>(&mut bytes) == bytes, "seed {seed} turn {turn}");
                stores += 1;
            } else {
                refused += 1;
            }
        }
    }
    println!("{stores} still a store, {refused} refused");
    assert!(stores > 1_000 / K::SHARE && refused > 1_000 / K::SHARE);
}

/// Full lists of contacts whose addresses all have bytes of one sum, by which the check finds those that may be equal; and each address in another's place.
fn addresses_of_one_sum_are_told_apart<K: Tried>() {
    let regions = K::LIMITS.regions();
    let lists = [(regions.group_contacts, 0x40), (regions.individual_contacts, 0)];
    let mut bytes = Pair::<K>::fresh().bytes;
    for (list, flags) in lists {
        bytes[list.at - COUNT..list.at].copy_from_slice(&(list.places as u16).to_be_bytes());
        for place in 0..list.places {
            let contact = [flags, 0x10 + place as u8, 1, 0xC0 - place as u8];
            bytes[list.slot(place)..][..contact.len()].copy_from_slice(&contact);
        }
    }
    assert!(is_store::<K>(&mut bytes));
    for (list, _) in lists {
        let key = |place| list.slot(place) + MEMBER_KEY.start;
        for place in 1..list.places {
            let mut twice = bytes.clone();
            twice.copy_within(key(place / 2)..key(place / 2) + MEMBER_KEY.len(), key(place));
            assert!(!is_store::<K>(&mut twice), "place {place} of the list at {}", list.at);
        }
    }
}

/// Every byte of a store; of those behind the tables, which are alike, every 31st and the last.
fn places<K: Tried>() -> impl Iterator<Item = usize> {
    let (spare, size) = (K::LIMITS.regions().spare(), K::STORE_SIZE);
    (0..spare).chain((spare..size).step_by(31)).chain([size - 1])
}

/// Every byte of a fresh store changed: a store only where made again it is the same.
fn every_byte_of_a_fresh_store<K: Tried>() {
    let fresh = Pair::<K>::fresh().bytes;
    for place in places::<K>() {
        for value in [1, 0x10, 0xFF] {
            let mut bytes = fresh.clone();
            bytes[place] ^= value;
            if is_store::<K>(&mut bytes) {
                assert!(made_again::<K>(&mut bytes) == bytes, "byte {place}");
            }
        }
    }
}

fn bytes_of_no_store<K: Tried>() {
    for fill in [0, 1, 0x10, 0x7F, 0xFF] {
        assert!(!is_store::<K>(&mut vec![fill; K::STORE_SIZE]));
    }
    assert!(!is_store::<K>(&mut patterned(K::STORE_SIZE)));
}
