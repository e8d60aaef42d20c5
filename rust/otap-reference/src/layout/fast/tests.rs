//! The fast check says what the reading says: of stores, of stores damaged at every byte, and of stores poked where more than one byte has to fit.

use super::super::tests::held;
use super::super::{bytes, is_store as is_read};
use super::*;
use crate::inputs::pokes::{
    fit_texts, order_lines, poke_count, poke_line_slot, poke_list, poke_order, poke_texts,
};
use crate::inputs::random::Random;
use crate::inputs::Inputs;
use crate::reference::commit::{judge_and_commit, REPLY_ROOM};
use crate::reference::limits::{BOTH, HANDHELD, VEHICLE};
use crate::reference::tables::Set;

/// How often both said yes, and how often no.
#[derive(Default)]
struct Said {
    yes: usize,
    no: usize,
}

impl Said {
    fn ask(&mut self, bytes: &[u8], limits: Limits, what: &str) {
        let answer = is_store(bytes, limits);
        assert_eq!(answer, is_read(bytes, limits), "{what}");
        self.yes += usize::from(answer);
        self.no += usize::from(!answer);
    }
}

/// The set after so many messages, of which most change it.
fn after(messages: usize, seed: u64, limits: Limits) -> Set {
    let (mut inputs, mut set) = (Inputs::new(seed, limits), Set::fresh(limits));
    for _ in 0..messages {
        judge_and_commit(&inputs.message(), &mut set, &mut [0; REPLY_ROOM]);
    }
    set
}

fn full(limits: Limits) -> Vec<u8> {
    bytes(&held(limits, [64, 64, limits.channels as u16, limits.lines as u16]))
}

/// Each of these bytes as 0, with its lowest bit changed, and as any other.
fn damage(said: &mut Said, limits: Limits, store: &[u8], places: std::ops::Range<usize>) {
    let (mut random, mut poked) = (Random::new(3), store.to_vec());
    for place in places {
        let own = store[place];
        for other in [0, own ^ 1, random.bits(8) as u8].into_iter().filter(|&other| other != own) {
            poked[place] = other;
            said.ask(&poked, limits, &format!("byte {place} is {other}"));
        }
        poked[place] = own;
    }
}

#[test]
fn every_byte_of_a_handheld() {
    let used = HANDHELD.regions().spare();
    for store in [full(HANDHELD), bytes(&after(60, 5, HANDHELD)), bytes(&Set::fresh(HANDHELD))] {
        let mut said = Said::default();
        damage(&mut said, HANDHELD, &store, 0..used);
        // Of a fresh one few bytes alone can be others.
        assert!(said.yes > 20 && said.no > used, "{} {}", said.yes, said.no);
    }
}

#[test]
fn every_byte_of_a_vehicle() {
    let used = VEHICLE.regions().spare();
    for store in [full(VEHICLE), bytes(&after(60, 5, VEHICLE))] {
        let mut said = Said::default();
        damage(&mut said, VEHICLE, &store, 0..used);
        assert!(said.yes > 500 && said.no > used, "{} {}", said.yes, said.no);
    }
}

/// A byte behind the tables is 0, wherever it stands.
#[test]
fn every_spare_byte() {
    for limits in BOTH {
        let (mut said, mut poked) = (Said::default(), full(limits));
        for place in limits.regions().spare()..limits.store {
            poked[place] = 1 << (place % 8);
            said.ask(&poked, limits, &format!("byte {place}"));
            poked[place] = 0;
        }
        said.ask(&poked, limits, "as it was");
        assert_eq!((said.yes, said.no), (1, limits.store - limits.regions().spare()));
    }
}

/// All 256 values of each byte of the fixed regions, of the counts, and of the first slot of each table; the order and a shared area follow.
#[test]
fn every_value() {
    for limits in BOTH {
        let (regions, store) = (limits.regions(), full(limits));
        let tables = [regions.with_texts().to_vec(), vec![regions.channels]].concat();
        let slots = tables.iter().flat_map(|slots| slots.at..slots.slot(1).min(slots.at + 24));
        let counts = regions.lists().map(|list| [list.at - 2, list.at - 1]).concat();
        let mut said = Said::default();
        for place in (0..FIXED).chain(counts).chain(slots) {
            for value in 0..=255 {
                let mut poked = store.clone();
                poked[place] = value;
                order_lines(limits, &mut poked);
                fit_texts(limits, &mut poked);
                said.ask(&poked, limits, &format!("byte {place} is {value}"));
            }
        }
        assert!(said.yes > 2_000 && said.no > 2_000, "{} {}", said.yes, said.no);
    }
}

/// Lists beside their counts, orders, line slots and texts, one to three of them at a time.
#[test]
fn poked_stores() {
    let pokes = [poke_list, poke_order, poke_line_slot, poke_texts, poke_count];
    for limits in BOTH {
        let (mut random, mut said) = (Random::new(7), Said::default());
        for seed in 0..40 {
            let stores = [bytes(&after(15, seed, limits)), full(limits)];
            for _ in 0..100 {
                let mut poked = stores[random.below(2)].clone();
                for _ in 0..random.within(1..=3) {
                    // The pokes go by what a store counts.
                    if is_read(&poked, limits) {
                        pokes[random.below(pokes.len())](&mut random, limits, &mut poked);
                    }
                }
                said.ask(&poked, limits, "poked");
            }
        }
        assert!(said.yes > 500 && said.no > 500, "{} {}", said.yes, said.no);
    }
}

/// Another length is none, and looked at no further.
#[test]
fn lengths() {
    for limits in BOTH {
        let mut said = Said::default();
        for length in [0, 1, FIXED, 24_575, 24_576, 24_577, 49_151, 49_152, 49_153] {
            let mut other = bytes(&Set::fresh(limits));
            other.resize(length, 0);
            said.ask(&other, limits, "a length");
        }
        assert_eq!((said.yes, said.no), (1, 8));
    }
}

/// Two contacts of one address, at any two places.
#[test]
fn one_address_twice() {
    for limits in BOTH {
        let (store, mut said) = (full(limits), Said::default());
        let list = limits.regions().group_contacts;
        for (one, other) in (0..64).flat_map(|one| (0..64).map(move |other| (one, other))) {
            let mut poked = store.clone();
            poked.copy_within(list.slot(one)..list.slot(one + 1), list.slot(other));
            said.ask(&poked, limits, &format!("{one} at {other}"));
        }
        assert_eq!((said.yes, said.no), (64, 64 * 63));
    }
}
