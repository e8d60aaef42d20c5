//! Buffers of a wrong size: the number, the order of the refusals, and that nothing is touched.

use otap::{Set, MOST_DIGITS, REPLY_ROOM, SCRATCH_ROOM};
use otap_reference::inputs::calls::{Call, Calls};
use otap_reference::inputs::reports::ReportCall;
use otap_reference::inputs::values::Value;
use otap_reference::reference::queries::query;
use otap_tests::for_both_sets;
use otap_tests::pair::{number_of, patterned, Pair};
use otap_tests::sets::Tried;
use otap_tests::values::refused_by_all;
use std::collections::BTreeMap;

for_both_sets!(
    calls_of_every_kind_and_size,
    starting_takes_only_the_right_size,
    a_store_of_another_size_is_none,
    short_buffers_come_first,
);

/// A hand-held's store had so many bytes before the contact lists.
const FORMER_SIZE: usize = 12_288;

/// The other kind's size among them.
fn sizes<K: Tried>() -> [usize; 10] {
    let right = K::STORE_SIZE;
    let others = [FORMER_SIZE, right / 2, right - 1, right + 1, 2 * right, 65_536];
    let [former, half, fewer, more, double, many] = others;
    [0, 1, SCRATCH_ROOM - 1, K::LONGEST_MESSAGE, former, half, fewer, more, double, many]
}

fn call<K: Tried>(pair: &mut Pair<K>, call: &Call) -> u8 {
    match call {
        Call::Judge { message, room } => pair.judge_into(message, *room),
        Call::Commit { message, room } => pair.commit_into(message, *room),
        Call::Export { part, room } => pair.export_into(*part, *room),
        Call::Row { table, row, room } => pair.show_into(*table, *row, *room),
        Call::Counts => pair.count(),
    }
}

/// Calls of every kind, with every number that they can answer among the answers.
fn calls_of_every_kind_and_size<K: Tried>() {
    let mut counts: BTreeMap<u8, usize> = BTreeMap::new();
    for seed in 4_000..4_200 {
        let mut calls = Calls::new(seed, K::LIMITS);
        let mut pair = Pair::<K>::fresh();
        for turn in 0..200 {
            let size = calls.store_size(K::STORE_SIZE);
            let mut other = pair.clone();
            other.bytes.resize(size, 0);
            let lent = if size == K::STORE_SIZE { &mut pair } else { &mut other };
            let number = call(lent, &calls.call());
            let caller = calls.caller();
            let called = lent.call_from(caller.id_type, &caller.digits);
            let asked = lent.ask(calls.value());
            // Less often, since a query may ask for all that the set holds, 255 times.
            let reported = (turn % 20 == 0).then(|| {
                let (ReportCall { query, index }, room) = calls.report();
                lent.report_into(&query, index, room).err().unwrap_or(0)
            });
            let called = called.err().unwrap_or(0);
            for number in [number, called, asked].into_iter().chain(reported) {
                *counts.entry(number).or_default() += 1;
            }
        }
    }
    println!("{counts:?}");
    for number in (0..=5).chain(10..=17).chain([20]) {
        assert!(counts.get(&number).is_some_and(|&count| count > 100), "number {number}");
    }
}

fn starting_takes_only_the_right_size<K: Tried>() {
    for size in sizes::<K>() {
        let mut bytes = patterned(size);
        assert_eq!(number_of(&Set::<K>::start(&mut bytes)), 11, "{size} bytes");
        assert!(bytes == patterned(size), "refused, so the bytes stay");
    }
    let fresh = Pair::<K>::fresh().bytes;
    for fill in [0, 1, 0xFF] {
        let mut bytes = vec![fill; K::STORE_SIZE];
        assert!(Set::<K>::start(&mut bytes).is_ok());
        assert!(bytes == fresh, "any bytes become the same fresh store");
    }
}

fn a_store_of_another_size_is_none<K: Tried>() {
    for size in sizes::<K>() {
        let mut pair = Pair::<K>::fresh();
        pair.bytes.resize(size, 0);
        assert_eq!(pair.commit(&otap_tests::hex_request(&["CD 00 05 07 E4 C0"])), 11);
        assert_eq!(pair.export_into(1, K::LONGEST_MESSAGE), 11);
        assert_eq!(pair.report_into(&query(&[0xCE]), 1, K::LONGEST_MESSAGE), Err(11));
        assert_eq!(pair.show_into(1, 0, SCRATCH_ROOM), 11);
        assert_eq!(pair.count(), 11);
        assert_eq!(pair.call_from(otap::PSTN, &[3]), Err(11));
        assert_eq!(pair.call_from(otap::PSTN, &[]), Err(11));
        refused_by_all::<K>(&mut pair.bytes);
        assert_eq!(number_of(&Set::<K>::open(&mut pair.bytes)), 11);
    }
}

fn short_buffers_come_first<K: Tried>() {
    let good = otap_tests::hex_request(&["CD 00 05 07 E4 C0"]);
    for size in [K::STORE_SIZE, 5] {
        for message in [&good[..], &good[..3]] {
            let mut pair = Pair::<K>::fresh();
            pair.bytes.resize(size, 0);
            for room in 0..REPLY_ROOM {
                assert_eq!(pair.commit_into(message, room), 10);
            }
            for room in (0..K::LONGEST_MESSAGE).step_by(97).chain([K::LONGEST_MESSAGE - 1]) {
                assert_eq!(pair.export_into(u32::MAX, room), 15);
                assert_eq!(pair.report_into(message, u32::MAX, room), Err(15));
            }
            for room in 0..SCRATCH_ROOM {
                assert_eq!(pair.show_into(u32::MAX, 9, room), 15);
            }
            for room in 0..MOST_DIGITS {
                let value = Value::EntryDigits { table: u32::MAX, index: 9, room };
                assert_eq!(pair.ask(value), 15);
            }
        }
    }
}
