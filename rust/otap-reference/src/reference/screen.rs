//! Screen rows: the number of a row and the units shown for it.

use super::numbers::{BUFFER_SHORT, NOT_A_STORE, NO_SUCH_ROW, TAKEN};
use super::plan::{dialled_group, dialled_individual};
use super::settings::{GroupSlot, IndividualSlot, Line, BACKGROUND};
use super::tables::{Set, FIRST_STATUS};

pub const SCRATCH_ROOM: usize = 36;

/// A row named by its table.
#[derive(Clone, Copy, Debug, PartialEq, Eq)]
pub enum Row {
    Line(usize),
    Quick(usize),
    Status(usize),
    Group(usize),
    Individual(usize),
    GroupContact(usize),
    IndividualContact(usize),
    LineSlot(usize),
}

/// The part given to the screen, as 16-bit units.
#[derive(Clone, Debug, PartialEq, Eq)]
pub enum Shown {
    /// A refusal's empty part.
    Nothing,
    /// The stored text's own part of the store; may be empty for a status text.
    Stored(Vec<u16>),
    /// The start of the scratch, where the number was written.
    Scratch(Vec<u16>),
}

/// The first call: 0, 15, 11 or 17.
pub fn row_number(row: Row, is_store: bool, set: &Set, scratch: &[u8]) -> u8 {
    judged(row, is_store, set, scratch).map_or_else(|number| number, |_| TAKEN)
}

/// The second call: judges as the first, and writes the scratch only where a number is shown.
pub fn row_part(row: Row, is_store: bool, set: &Set, scratch: &mut [u8]) -> Shown {
    let shown = judged(row, is_store, set, scratch).unwrap_or(Shown::Nothing);
    if let Shown::Scratch(units) = &shown {
        for (place, unit) in scratch.chunks_exact_mut(2).zip(units) {
            place.copy_from_slice(&unit.to_be_bytes());
        }
    }
    shown
}

/// What is shown, or 15, 11 or 17.
fn judged(row: Row, is_store: bool, set: &Set, scratch: &[u8]) -> Result<Shown, u8> {
    if scratch.len() < SCRATCH_ROOM {
        return Err(BUFFER_SHORT);
    }
    if !is_store {
        return Err(NOT_A_STORE);
    }
    row_units(row, set).ok_or(NO_SUCH_ROW)
}

fn row_units(row: Row, set: &Set) -> Option<Shown> {
    let tables = &set.tables;
    match row {
        Row::Line(position) => tables.lines.get(position).map(line),
        Row::Quick(index) => held(&tables.quick_texts, index).cloned().map(Shown::Stored),
        Row::Status(code) => {
            let place = code.checked_sub(usize::from(FIRST_STATUS))?;
            held(&tables.status_texts, place).cloned().map(Shown::Stored)
        }
        Row::Group(index) => held(&tables.groups, index).and_then(group),
        Row::Individual(index) => held(&tables.individuals, index).map(individual),
        Row::GroupContact(position) => tables.group_contacts.get(position).and_then(group),
        Row::IndividualContact(position) => {
            tables.individual_contacts.get(position).map(individual)
        }
        Row::LineSlot(index) => held(&tables.line_slots, index).map(line),
    }
}

fn line(line: &Line) -> Shown {
    text_or(&line.text, || digits_shown(&line.digits))
}

pub(super) fn digits_shown(digits: &[u8]) -> Vec<u16> {
    digits.iter().map(|digit| u16::from(b'0' + digit)).collect()
}

/// Nothing of a background group, wherever it stands; the rows behind it keep their places.
fn group(group: &GroupSlot) -> Option<Shown> {
    let shown = || text_or(&group.text, || number(dialled_group(group.address), group.address.0));
    (group.attribute != BACKGROUND).then(shown)
}

fn individual(one: &IndividualSlot) -> Shown {
    text_or(&one.text, || number(dialled_individual(one.address), one.address.0))
}

pub(super) fn held<T>(table: &[Option<T>], place: usize) -> Option<&T> {
    table.get(place)?.as_ref()
}

fn text_or(text: &[u16], number: impl FnOnce() -> Vec<u16>) -> Shown {
    if text.is_empty() {
        Shown::Scratch(number())
    } else {
        Shown::Stored(text.to_vec())
    }
}

/// Eight dialled digits, or six hex digits for an address outside the plan.
pub(super) fn number(dialled: Result<u32, u8>, address: u32) -> Vec<u16> {
    let written = match dialled {
        Ok(dialled) => format!("{dialled:08}"),
        Err(_) => format!("{address:06X}"),
    };
    written.encode_utf16().collect()
}
