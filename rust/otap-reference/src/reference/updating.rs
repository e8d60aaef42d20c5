//! Short updates (document 02, A14): whether a request takes one set to the tables of another, and a proposal of our own where one export part differs.
//!
//! Both sets are of one kind; nothing stands for bytes that are no store of that kind.

use super::commit::{commit, REPLY_ROOM};
use super::export::{part_bytes, PARTS};
use super::message::{of_kind, REQUEST};
use super::numbers::{BUFFER_SHORT, NOT_A_STORE, NO_SINGLE_PART, TAKEN};
use super::tables::{Set, Tables};

#[cfg(test)]
mod proposal_tests;
#[cfg(test)]
mod room_tests;
#[cfg(test)]
mod tests;

/// The check: whether the first would take the message, which is a request, and then have the second's tables. The kept hash is no part of that.
pub fn check_update(first: Option<&Set>, second: Option<&Set>, message: &[u8]) -> Result<bool, u8> {
    let (first, second) = stores(first, second)?;
    // A result query that matches is answered 0 too, and changes nothing.
    if of_kind(message, first.limits, REQUEST).is_err() {
        return Ok(false);
    }
    let mut updated = first.clone();
    let answer = commit(message, &mut updated, &mut [0; REPLY_ROOM]);
    Ok(answer.number == TAKEN && updated.tables == second.tables)
}

/// The proposer: writes the second's part at the buffer's start where the tables of one part alone differ, and says how many bytes it wrote; or is refused and
/// writes nothing.
pub fn propose(first: Option<&Set>, second: Option<&Set>, buffer: &mut [u8]) -> Result<usize, u8> {
    let (first, second) = stores(first, second)?;
    if buffer.len() < second.limits.message {
        return Err(BUFFER_SHORT);
    }
    let part = sole_part(&first.tables, &second.tables).ok_or(NO_SINGLE_PART)?;
    let message = part_bytes(part, second).expect("one of the ten");
    buffer[..message.len()].copy_from_slice(&message);
    Ok(message.len())
}

fn stores<'a>(first: Option<&'a Set>, second: Option<&'a Set>) -> Result<(&'a Set, &'a Set), u8> {
    first.zip(second).ok_or(NOT_A_STORE)
}

/// The part whose tables differ, if no other's do.
fn sole_part(first: &Tables, second: &Tables) -> Option<u8> {
    let mut differing = (1..=PARTS).filter(|&part| differs(part, first, second));
    let sole = differing.next();
    sole.filter(|_| differing.next().is_none())
}

/// Whether the tables of a part differ; the emergency key, the home numbers and the system code are one.
fn differs(part: u8, first: &Tables, second: &Tables) -> bool {
    match part {
        1 => first.lines != second.lines,
        2 => {
            let [one, other] =
                [first, second].map(|tables| (tables.emergency, tables.home, tables.system));
            one != other
        }
        3 => first.quick_texts != second.quick_texts,
        4 => first.channels != second.channels,
        5 => first.status_texts != second.status_texts,
        6 => first.groups != second.groups,
        7 => first.individuals != second.individuals,
        8 => first.group_contacts != second.group_contacts,
        9 => first.individual_contacts != second.individual_contacts,
        _ => first.line_slots != second.line_slots,
    }
}
