//! Who is calling (document 02, A7): the order of the line contacts by their key, and the row that has a caller's number.

use super::numbers::{NOT_A_STORE, OUTSIDE_PLAN};
use super::settings::MOST_DIGITS;
use super::tables::{Line, Set};

#[cfg(test)]
mod tests;

/// The positions of the lines by IDtype, PSTN before PABX, then by digits from the left, a number before a longer one that starts with it.
pub fn order(lines: &[Line]) -> Vec<usize> {
    let mut positions: Vec<usize> = (0..lines.len()).collect();
    positions.sort_by(|&one, &other| lines[one].key().cmp(&lines[other].key()));
    positions
}

/// The call: the row of the line contact with this IDtype and these digits, one a byte, or that none has them; or 11 or 20. It writes nothing.
pub fn line_of(id_type: u32, digits: &[u8], is_store: bool, set: &Set) -> Result<Option<u32>, u8> {
    if !is_store {
        return Err(NOT_A_STORE);
    }
    if !is_number(digits) {
        return Err(OUTSIDE_PLAN);
    }
    // Found in the lines as they stand, so that the answer says nothing of how they are ordered.
    let found = (0..).zip(&set.tables.lines).find(|(_, line)| has(line, id_type, digits));
    Ok(found.map(|(position, _)| position))
}

fn is_number(digits: &[u8]) -> bool {
    (1..=MOST_DIGITS).contains(&digits.len()) && digits.iter().all(|&digit| digit <= 9)
}

/// An IDtype other than 0 and 1 is no line's.
fn has(line: &Line, id_type: u32, digits: &[u8]) -> bool {
    u32::from(line.flags.pabx) == id_type && line.digits == digits
}
