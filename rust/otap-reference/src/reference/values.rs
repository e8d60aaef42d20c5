//! Behind a row: what the officer calls by it, and the settings that the radio works by. Nothing here writes but an entry's digits.

use super::numbers::{BUFFER_SHORT, NOT_A_STORE, NO_SUCH_ROW};
use super::plan::{GroupAddress, IndividualAddress};
use super::screen::held;
use super::settings::{
    EmergencyKey, GroupFlags, GroupSlot, HomeNumbers, IndividualFlags, IndividualSlot, LineFlags,
    SystemCode, MOST_DIGITS,
};
use super::tables::{Line, Set, Tables};

#[cfg(test)]
mod store_tests;
#[cfg(test)]
mod tests;

/// The least buffer for digits: any number that is held fits.
pub const DIGITS_ROOM: usize = MOST_DIGITS;

/// The screen's tables by their numbers for C; quick and status texts, 2 and 3, have nothing behind their rows.
pub const LINES: u32 = 1;
pub const GROUPS: u32 = 4;
pub const INDIVIDUALS: u32 = 5;
pub const GROUP_CONTACTS: u32 = 6;
pub const INDIVIDUAL_CONTACTS: u32 = 7;
pub const LINE_SLOTS: u32 = 8;

/// What stands behind a row, by kind: one address may be a group's and an individual's.
#[derive(Clone, Copy, Debug, PartialEq, Eq)]
pub enum Entry {
    Group {
        address: GroupAddress,
        flags: GroupFlags,
    },
    Individual {
        address: IndividualAddress,
        flags: IndividualFlags,
    },
    /// The digits are asked for by themselves.
    Line {
        flags: LineFlags,
    },
}

/// The call: what stands in a table at the screen's index or position; or 11, or 17.
pub fn entry(table: u32, index: u32, is_store: bool, set: &Set) -> Result<Entry, u8> {
    entry_at(table, index, tables(is_store, set)?).ok_or(NO_SUCH_ROW)
}

/// The call: writes a line's digits, one a byte, at the buffer's start and says how many they are; or 15, 11, or 17.
pub fn entry_digits(
    table: u32,
    index: u32,
    is_store: bool,
    set: &Set,
    buffer: &mut [u8],
) -> Result<usize, u8> {
    if buffer.len() < DIGITS_ROOM {
        return Err(BUFFER_SHORT);
    }
    let line = line_at(table, index, tables(is_store, set)?).ok_or(NO_SUCH_ROW)?;
    buffer[..line.digits.len()].copy_from_slice(&line.digits);
    Ok(line.digits.len())
}

/// The call: the scan channel at a position; or 11, or 17 behind the last.
pub fn channel(position: u32, is_store: bool, set: &Set) -> Result<u16, u8> {
    tables(is_store, set)?.channels.get(position as usize).copied().ok_or(NO_SUCH_ROW)
}

/// The call: the emergency key, which without an address calls the current place and keeps its group bit; or 11.
pub fn emergency_key(is_store: bool, set: &Set) -> Result<EmergencyKey, u8> {
    tables(is_store, set).map(|tables| tables.emergency)
}

/// The call: NZI and NP; or 11.
pub fn home_numbers(is_store: bool, set: &Set) -> Result<HomeNumbers, u8> {
    tables(is_store, set).map(|tables| tables.home)
}

/// The call: LAI, LA, roaming and PAR; or 11.
pub fn system_code(is_store: bool, set: &Set) -> Result<SystemCode, u8> {
    tables(is_store, set).map(|tables| tables.system)
}

fn tables(is_store: bool, set: &Set) -> Result<&Tables, u8> {
    is_store.then_some(&set.tables).ok_or(NOT_A_STORE)
}

fn entry_at(table: u32, index: u32, tables: &Tables) -> Option<Entry> {
    let place = index as usize;
    match table {
        GROUPS => held(&tables.groups, place).map(group),
        INDIVIDUALS => held(&tables.individuals, place).map(individual),
        GROUP_CONTACTS => tables.group_contacts.get(place).map(group),
        INDIVIDUAL_CONTACTS => tables.individual_contacts.get(place).map(individual),
        _ => line_at(table, index, tables).map(|line| Entry::Line { flags: line.flags }),
    }
}

fn line_at(table: u32, index: u32, tables: &Tables) -> Option<&Line> {
    match table {
        LINES => tables.lines.get(index as usize),
        LINE_SLOTS => held(&tables.line_slots, index as usize),
        _ => None,
    }
}

/// A background group too: the radio listens to it, though the screen has no row for it.
fn group(slot: &GroupSlot) -> Entry {
    Entry::Group { address: slot.address, flags: slot.flags() }
}

fn individual(slot: &IndividualSlot) -> Entry {
    Entry::Individual { address: slot.address, flags: slot.flags() }
}
