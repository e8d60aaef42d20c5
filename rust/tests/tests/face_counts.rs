//! The counts that the menu shows, after messages that change them and after such as may not.

use otap::{Refusal, Set};
use otap_reference::inputs::Inputs;
use otap_reference::reference::settings::Operation;
use otap_tests::for_both_sets;
use otap_tests::pair::Pair;
use otap_tests::sets::Tried;
use otap_tests::{channels, lines, lines_add, request};

for_both_sets!(
    counts_of_many_stores,
    lines_one_by_one,
    channels_and_their_repeats,
    counts_of_whole_messages,
    no_store_has_no_counts,
);

/// The number of a request, and the counts after it.
fn after<K: Tried>(pair: &mut Pair<K>, settings: &[Vec<u8>]) -> (u8, usize, usize) {
    let number = pair.commit(&request(settings));
    let counts = pair.store().counts().expect("a store stays a store");
    (number, counts.lines, counts.channels)
}

fn key(number: u8) -> [u8; 3] {
    [number / 100, number / 10 % 10, number % 10]
}

fn lines_of(operation: Operation, numbers: std::ops::Range<u8>) -> Vec<u8> {
    let keys: Vec<[u8; 3]> = numbers.map(key).collect();
    lines(operation, &keys.iter().map(|key| &key[..]).collect::<Vec<_>>())
}

/// `Pair::commit` compares the counts with the reference's after each message.
fn counts_of_many_stores<K: Tried>() {
    let (mut full_lines, mut full_channels) = (0, 0);
    for seed in 6_000..6_050 {
        let mut inputs = Inputs::new(seed, K::LIMITS);
        let mut pair = Pair::<K>::fresh();
        for _ in 0..60 {
            pair.commit(&inputs.message());
            let counts = Set::<K>::open(&mut pair.bytes).and_then(|store| store.counts());
            let counts = counts.expect("a store stays a store");
            full_lines += usize::from(counts.free_lines() == 0);
            full_channels += usize::from(counts.free_channels() == 0);
        }
    }
    assert!(full_lines > 100 && full_channels > 100, "{full_lines}, {full_channels} full");
}

fn lines_one_by_one<K: Tried>() {
    let mut pair = Pair::<K>::fresh();
    let (room, most) = (K::MOST_LINES, K::MOST_LINES as u8);
    for number in 0..most {
        let held = usize::from(number) + 1;
        assert_eq!(after(&mut pair, &[lines_add(&[&key(number)])]), (0, held, 0));
    }
    assert_eq!(after(&mut pair, &[lines_add(&[&[9]])]), (2, room, 0));
    // A known number is overwritten in its place.
    assert_eq!(after(&mut pair, &[lines_add(&[&[0, 0, 7]])]), (0, room, 0));
    assert_eq!(after(&mut pair, &[lines_of(Operation::Delete, 7..8)]), (0, room - 1, 0));
    assert_eq!(after(&mut pair, &[lines_of(Operation::Delete, 7..8)]), (0, room - 1, 0));
    assert_eq!(after(&mut pair, &[lines_of(Operation::Delete, 0..most + 8)]), (0, 0, 0));
    assert_eq!(after(&mut pair, &[lines_of(Operation::Replace, 0..most)]), (0, room, 0));
    assert_eq!(after(&mut pair, &[lines_of(Operation::Replace, 0..most + 1)]), (2, room, 0));
    assert_eq!(after(&mut pair, &[lines_of(Operation::Replace, 0..0)]), (0, 0, 0));
}

fn channels_and_their_repeats<K: Tried>() {
    let mut pair = Pair::<K>::fresh();
    let mixed: Vec<u16> = (0..K::MOST_CHANNELS as u16).map(|place| 241 + place % 2).collect();
    let room = K::MOST_CHANNELS;
    assert_eq!(after(&mut pair, &[channels(Operation::Add, &mixed)]), (0, 0, room));
    assert_eq!(after(&mut pair, &[channels(Operation::Add, &[241])]), (2, 0, room));
    assert_eq!(after(&mut pair, &[channels(Operation::Delete, &[640])]), (0, 0, room));
    assert_eq!(after(&mut pair, &[channels(Operation::Delete, &[241])]), (0, 0, room / 2));
    assert_eq!(after(&mut pair, &[channels(Operation::Add, &[242; 3])]), (0, 0, room / 2 + 3));
    assert_eq!(after(&mut pair, &[channels(Operation::Replace, &[])]), (0, 0, 0));
}

/// Room that was freed earlier in the same message; and a fault behind good settings, which leaves both counts.
fn counts_of_whole_messages<K: Tried>() {
    let mut pair = Pair::<K>::fresh();
    let (room, most) = (K::MOST_LINES, K::MOST_LINES as u8);
    let full = [lines_of(Operation::Replace, 0..most), channels(Operation::Replace, &[241, 640])];
    assert_eq!(after(&mut pair, &full), (0, room, 2));
    let exchange = [lines_of(Operation::Delete, 0..2), lines_of(Operation::Add, most..most + 2)];
    assert_eq!(after(&mut pair, &exchange), (0, room, 2));
    let late = [
        lines_of(Operation::Replace, 0..0),
        channels(Operation::Add, &[300; 10]),
        channels(Operation::Add, &[1]),
    ];
    assert_eq!(after(&mut pair, &late), (4, room, 2));
}

/// What C would get as 0 and 0 is a refusal here, and not an empty set.
fn no_store_has_no_counts<K: Tried>() {
    let mut pair = Pair::<K>::fresh();
    let counts = pair.store().counts().map(|counts| (counts.lines, counts.channels));
    assert_eq!(counts, Ok((0, 0)));
    for fill in [0, 1, 0xFF] {
        let mut bytes = vec![fill; K::STORE_SIZE];
        assert_eq!(Set::<K>::lent(&mut bytes).counts(), Err(Refusal::NotAStore));
        assert_eq!(K::otap_counts(&bytes), 11);
        let store = match Set::<K>::open(&mut bytes) {
            Ok(kept) => kept,
            Err(_) => Set::<K>::start(&mut bytes).expect("the size is right"),
        };
        assert!(store.bytes() == pair.bytes, "a fresh store is started");
    }
}
