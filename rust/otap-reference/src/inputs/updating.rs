//! Two sets of one kind for the calls of short updates, mostly neighbours, and a message that may lead from the first to the second.

#[cfg(test)]
mod tests;

use super::draft::Draft;
use super::maker::pool_hash;
use super::random::Random;
use super::requests::{any_size, maker, request};
use crate::reference::commit::{judge_and_commit, REPLY_ROOM};
use crate::reference::export::{part_bytes, PARTS};
use crate::reference::message::{query, REQUEST_HEAD};
use crate::reference::tables::Set;
use crate::reference::texts::Coding;

/// The types of each part's settings.
const TYPES_OF_PARTS: [&[u8]; PARTS as usize] = [
    &[0xCA],
    &[0xCB, 0xCD, 0xCF],
    &[0xCC],
    &[0xCE],
    &[0xD0],
    &[0xD1],
    &[0xD2],
    &[0xC8],
    &[0xC9],
    &[0xD3],
];

/// The parts that go slot by slot, which a hand-held may have no room for on the way.
pub const SLOT_PARTS: [u8; 3] = [6, 7, 10];

/// A set beside this one: mostly the tables of one part were changed, at times of none or of two; and often it keeps another hash.
pub fn neighbour(random: &mut Random, set: &Set) -> Set {
    let mut other = set.clone();
    for _ in 0..random.pick(&[0, 1, 1, 1, 1, 1, 1, 2]) {
        let part = random.within(1..=usize::from(PARTS)) as u8;
        if SLOT_PARTS.contains(&part) && random.flag() {
            exchange(random, &mut other, part);
        } else {
            change(random, &mut other, TYPES_OF_PARTS[usize::from(part) - 1]);
        }
    }
    if random.flag() {
        other.hash = pool_hash(random);
    }
    other
}

/// Sends it settings of these types, each by itself, so that one without room leaves the others.
fn change(random: &mut Random, set: &mut Set, types: &[u8]) {
    for _ in 0..random.pick(&[1, 1, 2, 6]) {
        let mut draft = Draft::new(random, set.limits);
        let (kind, size) = (random.pick(types), any_size(random));
        draft.push_if_room(maker(random, set, &draft).of_type(kind, size));
        judge_and_commit(&draft.bytes(), set, &mut [0; REPLY_ROOM]);
    }
}

/// Two slots change places: the sum of all texts stays, and on the way to it a slot may grow first.
fn exchange(random: &mut Random, set: &mut Set, part: u8) {
    let (tables, places) = (&mut set.tables, [random.below(16), random.below(16)]);
    match part {
        6 => tables.groups.swap(places[0], places[1]),
        7 => tables.individuals.swap(places[0], places[1]),
        _ => tables.line_slots.swap(places[0], places[1]),
    }
}

/// A message from the first to the second: parts of the second, or something that only comes near.
pub fn update(random: &mut Random, first: &Set, second: &Set) -> Vec<u8> {
    let differing: Vec<u8> =
        (1..=PARTS).filter(|&part| part_bytes(part, first) != part_bytes(part, second)).collect();
    let any = random.within(1..=usize::from(PARTS)) as u8;
    match random.below(12) {
        0..=5 => parts(random, second, &differing),
        6 => parts(random, second, &[any]),
        7 => parts(random, first, &differing),
        8 => query(&first.hash),
        9 => request(random, first).bytes(),
        _ => {
            let mut message = parts(random, second, &differing);
            let place = random.below(message.len());
            message[place] ^= 1 << random.below(8);
            message
        }
    }
}

/// One request with these parts of a set, or, without any, with no channels added; at times with an item FF behind them.
fn parts(random: &mut Random, set: &Set, parts: &[u8]) -> Vec<u8> {
    let mut draft = Draft::of(random, set.limits, Coding::Unicode);
    let mut sum = 0;
    for &part in parts {
        let message = part_bytes(part, set).expect("one of the ten");
        draft.settings.push(message[REQUEST_HEAD..].to_vec());
        sum += usize::from(message[REQUEST_HEAD - 1]);
    }
    if parts.is_empty() {
        draft.settings.push(vec![0xCE, 0, 4, 0x40, 0]);
        sum = 1;
    }
    if random.percent(30) {
        draft.settings.push(maker(random, set, &draft).last());
        sum += 1;
    }
    draft.sum = Some(sum.min(255) as u8);
    draft.bytes()
}
