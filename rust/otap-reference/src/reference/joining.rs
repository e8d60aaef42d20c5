//! Joining two requests under one header (document 02, A9): which may be joined, and the call that does it.

use super::commit::each_setting;
use super::limits::Limits;
use super::message::{carry, first_byte, of_kind, REQUEST};
use super::numbers::{BAD_FIELD, BUFFER_SHORT, MESSAGE_LENGTH};
use super::settings::Setting;

#[cfg(test)]
mod order_tests;
#[cfg(test)]
mod store_tests;
#[cfg(test)]
mod tests;

/// Why two requests are not joined.
#[derive(Clone, Copy, Debug, PartialEq, Eq)]
pub struct Refused {
    pub number: u8,
    /// The place of a setting in its own request, or 0.
    pub failed: u8,
    /// That the second request is at fault; otherwise it is the first, or neither by itself.
    pub second: bool,
}

/// What the call answers: how many bytes it wrote.
pub type Joined = Result<usize, Refused>;

/// The call: writes the request joined for such a set at the buffer's start; or is refused and writes nothing.
pub fn join(first: &[u8], second: &[u8], limits: Limits, buffer: &mut [u8]) -> Joined {
    if buffer.len() < limits.message {
        return Err(of_neither(BUFFER_SHORT));
    }
    let message = joined(first, second, limits)?;
    buffer[..message.len()].copy_from_slice(&message);
    Ok(message.len())
}

/// A request that may be joined with another.
struct Part<'a> {
    coding: u8,
    count: u8,
    settings: &'a [u8],
}

fn joined(first: &[u8], second: &[u8], limits: Limits) -> Result<Vec<u8>, Refused> {
    let first = part(first, limits, false)?;
    let second = part(second, limits, true)?;
    if first.coding != second.coding {
        return Err(of_neither(BAD_FIELD));
    }
    let count = first.count.checked_add(second.count).ok_or(of_neither(BAD_FIELD))?;
    let data = [&[first_byte(REQUEST), count], first.settings, second.settings].concat();
    let message = carry(first.coding, &data);
    if message.len() > limits.message {
        return Err(of_neither(MESSAGE_LENGTH));
    }
    Ok(message)
}

fn of_neither(number: u8) -> Refused {
    Refused { number, failed: 0, second: false }
}

fn part(message: &[u8], limits: Limits, second: bool) -> Result<Part<'_>, Refused> {
    judged(message, limits).map_err(|(number, failed)| Refused { number, failed, second })
}

/// What taking would find wrong where every setting has room, and then an item FF.
fn judged(message: &[u8], limits: Limits) -> Result<Part<'_>, (u8, u8)> {
    let opened = of_kind(message, limits, REQUEST).map_err(|number| (number, 0))?;
    let mut has_last = false;
    each_setting(&opened, |setting| {
        has_last |= matches!(setting, Setting::Last(_));
        Ok(())
    })?;
    let count = opened.body[0];
    if has_last {
        // Only the last setting can be one: before others it is at fault itself.
        return Err((BAD_FIELD, count));
    }
    Ok(Part { coding: opened.coding, count, settings: &opened.body[1..] })
}
