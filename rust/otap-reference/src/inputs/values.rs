//! Values to ask for: behind rows that are there, such as come near one, and the settings that the radio works by.

use super::calls::room;
use super::random::Random;
use crate::reference::tables::{Set, Tables, MOST_CONTACTS};
use crate::reference::values::{
    DIGITS_ROOM, GROUPS, GROUP_CONTACTS, INDIVIDUALS, INDIVIDUAL_CONTACTS, LINES, LINE_SLOTS,
};

/// One of the six calls, with the room of its buffer if it has one.
#[derive(Clone, Copy, Debug, PartialEq, Eq)]
pub enum Value {
    Entry { table: u32, index: u32 },
    EntryDigits { table: u32, index: u32, room: usize },
    Channel { position: u32 },
    EmergencyKey,
    HomeNumbers,
    SystemCode,
}

const ENTRIES: [u32; 6] =
    [LINES, GROUPS, INDIVIDUALS, GROUP_CONTACTS, INDIVIDUAL_CONTACTS, LINE_SLOTS];
const NUMBERED: [u32; 2] = [LINES, LINE_SLOTS];

/// Tables of texts, and such as are none; some are one in their low byte or half.
const OTHERS: [u32; 9] = [0, 2, 3, 9, 10, 0x101, 0x104, 0x1_0008, u32::MAX];

/// A little more than any table has.
fn places(set: &Set) -> usize {
    MOST_CONTACTS.max(set.limits.lines).max(set.limits.channels) + 2
}

pub fn value(random: &mut Random, set: &Set) -> Value {
    match random.below(20) {
        0..=9 => {
            let (table, index) = row(random, &ENTRIES, set);
            Value::Entry { table, index }
        }
        10..=14 => {
            // Now and then of a row that has no digits.
            let from = if random.percent(90) { &NUMBERED[..] } else { &ENTRIES };
            let (table, index) = row(random, from, set);
            Value::EntryDigits { table, index, room: room(random, DIGITS_ROOM) }
        }
        15..=16 => {
            let held = all(&set.tables.channels);
            Value::Channel { position: place(random, places(set), &held) }
        }
        17 => Value::EmergencyKey,
        18 => Value::HomeNumbers,
        _ => Value::SystemCode,
    }
}

/// One of these tables with a place, seldom another table with it.
fn row(random: &mut Random, from: &[u32], set: &Set) -> (u32, u32) {
    let table = random.pick(from);
    let index = place(random, places(set), &held(table, &set.tables));
    (if random.percent(5) { random.pick(&OTHERS) } else { table }, index)
}

/// Mostly a place in use; else any, the next one, or one that is in use by its low byte, half or bits.
fn place(random: &mut Random, places: usize, held: &[u32]) -> u32 {
    let any = random.below(places) as u32;
    let known = if held.is_empty() { any } else { random.pick(held) };
    match random.below(20) {
        0..=3 => any,
        4..=5 => known + 1,
        6 => known + random.pick(&[0x100, 0x1_0000, 0x8000_0000]),
        _ => known,
    }
}

/// The places of a table that are in use.
fn held(table: u32, tables: &Tables) -> Vec<u32> {
    match table {
        LINES => all(&tables.lines),
        GROUPS => filled(&tables.groups),
        INDIVIDUALS => filled(&tables.individuals),
        GROUP_CONTACTS => all(&tables.group_contacts),
        INDIVIDUAL_CONTACTS => all(&tables.individual_contacts),
        _ => filled(&tables.line_slots),
    }
}

fn all<T>(list: &[T]) -> Vec<u32> {
    (0..).zip(list).map(|(position, _)| position).collect()
}

fn filled<T>(slots: &[Option<T>]) -> Vec<u32> {
    (0..).zip(slots).filter_map(|(index, slot)| slot.as_ref().map(|_| index)).collect()
}
