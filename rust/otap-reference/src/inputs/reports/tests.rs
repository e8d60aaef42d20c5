//! The inputs do what they say: each damage is refused with its number and nothing else is, and every kind of query comes up.

use super::*;
use crate::inputs::maker::Maker;
use crate::inputs::Inputs;
use crate::reference::commit::{judge_and_commit, REPLY_ROOM};
use crate::reference::limits::{BOTH, HANDHELD};
use crate::reference::report_reading::read;
use crate::reference::reports::report as answer;
use crate::reference::texts::Coding;
use std::collections::BTreeMap;

const SEEDS: u64 = 400;

#[test]
fn good_reports_are_read() {
    BOTH.into_iter().for_each(good_reports_are_read_of);
}

fn good_reports_are_read_of(limits: Limits) {
    let (mut errors, mut empty, mut most) = (0, 0, 0);
    for seed in 0..SEEDS {
        let mut random = Random::new(seed);
        let message = good(&mut random, &Set::fresh(limits));
        let report =
            read(&message, limits).unwrap_or_else(|number| panic!("{number}: {message:02X?}"));
        errors += usize::from(report.entries.iter().any(|entry| entry.item.is_error()));
        empty += usize::from(report.entries.is_empty());
        most = most.max(report.entries.len());
        // What is written of it again differs in its reserved bits alone.
        for (entry, item) in report.entries.iter().zip(report.items()) {
            let again = item.bytes();
            let from = entry.places.behind - again.len();
            assert_eq!(entry_at(&again, 0).map(|entry| entry.item), Some(item));
            assert_eq!(again[0], message[from]);
        }
    }
    assert!(errors > 20 && empty > 10 && most > 50, "{errors} {empty} {most}");
}

#[test]
fn every_damage_is_refused() {
    BOTH.into_iter().for_each(every_damage_is_refused_of);
}

fn every_damage_is_refused_of(limits: Limits) {
    for damage in Damage::ALL {
        for seed in 0..SEEDS {
            let message = damaged(&mut Random::new(seed), &Set::fresh(limits), damage);
            let number = read(&message, limits).map(|_| TAKEN).unwrap_or_else(|number| number);
            assert_eq!(number, damage.number(), "{damage:?}: {message:02X?}");
        }
    }
}

/// Each ranged value in turn, of each type: out of range there, the parameter is none; without that slip it is one.
#[test]
fn every_value_out_of_range() {
    let set = Set::fresh(HANDHELD);
    let values = [3, 2, 3, 1, 1, 1, 1, 2, 2, 1];
    for (asked, least) in ASKED.into_iter().zip(values) {
        let mut refused = BTreeMap::new();
        for seed in 0..SEEDS {
            for slip in 0..8 {
                let random = &mut Random::new(seed);
                let coding = Coding::Unicode;
                let mut maker = Maker { random, set: &set, coding, slip_after: Some(slip) };
                let made = maker.parameter(asked);
                let slipped = maker.slip_after.is_none();
                assert_eq!(entry_at(&made, 0).is_none(), slipped, "{made:02X?}");
                *refused.entry(slip).or_insert(0) += usize::from(slipped);
            }
        }
        // The result is the first, but for the hash; of lines and hashes not every one has the last.
        let met = refused.values().filter(|&&times| times > 0).count();
        assert!(met > least, "{asked:02X}: {refused:?}");
    }
}

/// Every number that the call can answer comes up, and several messages.
#[test]
fn queries_of_every_kind() {
    BOTH.into_iter().for_each(queries_of_every_kind_of);
}

fn queries_of_every_kind_of(limits: Limits) {
    let mut met: BTreeMap<u8, usize> = BTreeMap::new();
    let mut several = 0;
    for seed in 0..60 {
        let mut inputs = Inputs::new(seed, limits);
        let mut set = Set::fresh(limits);
        for _ in 0..15 {
            judge_and_commit(&inputs.message(), &mut set, &mut [0; REPLY_ROOM]);
            let ReportCall { query, index } = inputs.report_call();
            let told = answer(&query, index, true, &set, &mut vec![0; limits.message]);
            several += usize::from(told.is_ok_and(|told| told.total > 1));
            *met.entry(told.map_or_else(|number| number, |_| TAKEN)).or_insert(0) += 1;
        }
    }
    println!("{met:?}, {several} of several messages");
    let kinds: Vec<u8> = met.keys().copied().collect();
    assert_eq!(kinds, [0, 1, 4, 12, 13, 14, 16]);
    assert!(met[&0] > 500 && met[&16] > 50 && met[&4] > 50 && several > 30);
}

#[test]
fn reports_and_places_of_every_kind() {
    BOTH.into_iter().for_each(reports_and_places_of_every_kind_of);
}

fn reports_and_places_of_every_kind_of(limits: Limits) {
    let (mut found, mut nothing, mut unforeseen) = (0, 0, 0);
    for seed in 0..40 {
        let mut inputs = Inputs::new(seed, limits);
        (0..10).for_each(|_| drop(inputs.message()));
        for _ in 0..20 {
            let ReportInput { message, number } = inputs.report();
            let answered = read(&message, limits).map_or_else(|number| number, |_| TAKEN);
            assert_eq!(answered, number.unwrap_or(answered), "{message:02X?}");
            unforeseen += usize::from(number.is_none() && answered == TAKEN);
            let at = inputs.report_place(&message) as usize;
            *if entry_at(&message, at).is_some() { &mut found } else { &mut nothing } += 1;
        }
    }
    println!("{found} found, {nothing} not; {unforeseen} changed and still reports");
    assert!(found > 100 && nothing > 100 && unforeseen > 5);
}
