//! Queries with the index of a message, and messages for the office's reader: of the set's own reports, made up, and damaged.

pub mod damage;
#[cfg(test)]
mod tests;

use super::carriers;
use super::draft::carried;
use super::maker::parameters::{ASKED, UNKNOWN};
use super::random::Random;
use crate::reference::limits::Limits;
use crate::reference::numbers::TAKEN;
use crate::reference::queries::{self, query_data};
use crate::reference::report_reading::entry_at;
use crate::reference::reports::{messages, REPORT_HEAD};
use crate::reference::tables::Set;
use damage::{damaged, Damage, ReportDraft};

/// What the report call is asked.
#[derive(Clone, Debug, PartialEq, Eq)]
pub struct ReportCall {
    pub query: Vec<u8>,
    pub index: u32,
}

/// A message for the reader, and the number that it answers where one can tell.
#[derive(Clone, Debug, PartialEq, Eq)]
pub struct ReportInput {
    pub message: Vec<u8>,
    pub number: Option<u8>,
}

pub fn call(random: &mut Random, set: &Set) -> ReportCall {
    let query = query(random, set.limits);
    let types = queries::types(&query, set.limits).unwrap_or(&[]);
    let total = messages(types, set).map_or(1, |messages| messages.len());
    ReportCall { index: index(random, total), query }
}

/// Mostly a good one; else its count is wrong, it is cut or goes on, or its carrier, MsgType, version or size is wrong.
pub fn query(random: &mut Random, limits: Limits) -> Vec<u8> {
    let mut data = query_data(&types(random));
    match random.below(25) {
        0 => data[1] = random.pick(&[data[1].wrapping_add(1), data[1] - 1, 0, 255]),
        1 => data.truncate(random.within(1..=data.len() - 1)),
        2 => data.extend(random.bytes_up_to(20)),
        3 => data = query_data(&[]),
        _ => {}
    }
    // Its coding type may be any, and so may the reserved bits.
    let coding = random.bits(8) as u8;
    let mut message = carried(coding, &data, random.percent(70));
    match random.below(50) {
        0..=4 => carriers::damage(random, &mut message),
        5 => message.truncate(random.below(7)),
        6 => {
            let most = limits.message;
            message.resize(random.pick(&[most, most + 1, most + 100]), 0xCE);
        }
        _ => {}
    }
    message
}

/// Few or many, at times all the same, at times with some that are unknown.
fn types(random: &mut Random) -> Vec<u8> {
    let count = random.pick(&[1, 1, 1, 2, 2, 3, 5, 10, 30, 255]);
    match random.below(10) {
        0..=1 => vec![random.pick(&ASKED); count],
        2..=3 => (0..count).map(|_| any_type(random)).collect(),
        4 => {
            // The last alone is unknown, so that all else is reported before it.
            let mut types: Vec<u8> = (1..count).map(|_| random.pick(&ASKED)).collect();
            types.push(random.pick(&UNKNOWN));
            types
        }
        _ => (0..count).map(|_| random.pick(&ASKED)).collect(),
    }
}

fn any_type(random: &mut Random) -> u8 {
    match random.below(10) {
        0..=6 => random.pick(&ASKED),
        7..=8 => random.pick(&UNKNOWN),
        _ => random.bits(8) as u8,
    }
}

/// Mostly one that the report has; else 0, the next one, any, or one of them in its low byte or half.
pub fn index(random: &mut Random, total: usize) -> u32 {
    let there = random.within(1..=total) as u32;
    match random.below(20) {
        0 => 0,
        1 => total as u32 + 1,
        2 => there + random.pick(&[0x100, 0x1_0000, 0x8000_0000]),
        3 => random.pick(&[2, 3, 229, 255, 256, u32::MAX]),
        4..=5 => total as u32,
        _ => there,
    }
}

pub fn report(random: &mut Random, set: &Set) -> ReportInput {
    match random.below(20) {
        0..=5 => ReportInput { message: own(random, set), number: Some(TAKEN) },
        6..=10 => ReportInput { message: good(random, set), number: Some(TAKEN) },
        11..=16 => {
            let damage = random.pick(&Damage::ALL);
            let message = damaged(random, set, damage);
            ReportInput { message, number: Some(damage.number()) }
        }
        _ => ReportInput { message: changed(random, set), number: None },
    }
}

/// A message of the set's own report to some types, which are not too many to be reported.
fn own(random: &mut Random, set: &Set) -> Vec<u8> {
    loop {
        if let Some(messages) = messages(&types(random), set) {
            return messages[random.below(messages.len())].clone();
        }
    }
}

/// One that no set need write: its indexes, its order and its reserved bits are any.
pub fn good(random: &mut Random, set: &Set) -> Vec<u8> {
    ReportDraft::new(random, set).bytes()
}

/// Bits or bytes changed anywhere, which at times leave a report.
fn changed(random: &mut Random, set: &Set) -> Vec<u8> {
    let mut message = good(random, set);
    for _ in 0..random.pick(&[1, 1, 1, 2, 3]) {
        let place = random.below(message.len());
        let bit = 1 << random.below(8);
        message[place] = if random.flag() { message[place] ^ bit } else { random.bits(8) as u8 };
    }
    message
}

/// Mostly the first byte of a parameter; else any byte, or one behind the end.
pub fn place(random: &mut Random, message: &[u8]) -> u32 {
    let next = |at: &usize| entry_at(message, *at).map(|entry| entry.places.behind);
    let starts: Vec<usize> = std::iter::successors(Some(REPORT_HEAD), next).collect();
    match random.below(20) {
        0..=3 => random.below(message.len() + 1) as u32,
        4 => message.len() as u32 + random.pick(&[0, 1, 2, 0x1_0000]),
        5 => random.pick(&[0, 6, 9, 11, 0x100, 0x1_000A, 0x8000_000A, u32::MAX]),
        _ => random.pick(&starts) as u32,
    }
}
