//! Texts by their length, and sets that hold as many as have room.

use crate::pair::Pair;
use crate::request;
use crate::sets::Tried;
use otap_reference::inputs::random::Random;
use otap_reference::inputs::requests::texts;
use otap_reference::inputs::Inputs;
use otap_reference::reference::settings::Operation::{self, Add};
use otap_reference::reference::settings::{LineEntry, LineFlags, Setting, TextEntry};
use std::ops::Range;

fn entries(of: &[(u8, usize)]) -> Vec<TextEntry> {
    of.iter().map(|&(key, units)| TextEntry { key, text: vec![0x8B66; units] }).collect()
}

/// Each an index and how many units.
pub fn quick(operation: Operation, of: &[(u8, usize)]) -> Vec<u8> {
    Setting::QuickTexts { operation, entries: entries(of) }.write()
}

/// Each a code and how many units.
pub fn status(operation: Operation, of: &[(u8, usize)]) -> Vec<u8> {
    Setting::StatusTexts { operation, entries: entries(of) }.write()
}

/// Each a digit and how many units.
pub fn lines(operation: Operation, of: &[(u8, usize)]) -> Vec<u8> {
    let entry = |&(digit, units): &(u8, usize)| LineEntry {
        digits: vec![digit],
        text: vec![0x8B66; units],
    };
    let entries = of.iter().map(entry).collect();
    Setting::Lines { operation, flags: LineFlags::default(), entries }.write()
}

/// 64 quick texts of 23 units, and so many status texts of 16: with 36 they are 4,096 bytes.
pub fn holding<K: Tried>(status_texts: u8) -> Pair<K> {
    let mut pair = Pair::<K>::fresh();
    let indexes: Vec<_> = (0..63).map(|index| (index, 23)).collect();
    let codes: Vec<_> = (32..32 + status_texts).map(|code| (code, 16)).collect();
    assert_eq!(pair.told(&request(&[quick(Add, &indexes)])), (0, 0));
    assert_eq!(pair.told(&request(&[quick(Add, &[(63, 23)]), status(Add, &codes)])), (0, 0));
    pair
}

pub fn full<K: Tried>() -> Pair<K> {
    holding(36)
}

/// What a hand-held says, by the failed ID, or what a vehicle does, which takes it.
pub fn no_room<K: Tried>(failed: u8) -> (u8, u8) {
    if K::TEXT_BYTES.is_some() {
        (2, failed)
    } else {
        (0, 0)
    }
}

/// Sets as messages leave them, after a few of which long texts are put until the area is full, or as many as that would take.
pub fn many_sets<K: Tried>(seeds: Range<u64>, mut each: impl FnMut(&mut Random, &mut Pair<K>)) {
    for seed in seeds {
        let (mut inputs, mut random) = (Inputs::new(seed, K::LIMITS), Random::new(!seed));
        let mut pair = Pair::<K>::fresh();
        for turn in 0..60 {
            pair.commit(&inputs.message());
            if turn % 6 == 5 {
                fill(&mut random, &mut pair);
                each(&mut random, &mut pair);
            }
        }
    }
}

/// At times not at all.
fn fill<K: Tried>(random: &mut Random, pair: &mut Pair<K>) {
    for _ in 0..random.pick(&[0, 2, 4, 8]) {
        let message = texts::fill(random, &pair.set).bytes();
        pair.commit(&message);
    }
}
