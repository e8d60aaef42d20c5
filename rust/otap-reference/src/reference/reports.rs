//! Answering a query (document 02, A8): the parameters of the tables asked for, cut into messages, and the call that writes one of them.

pub mod items;

use super::message::{carry, first_byte, REPORT};
use super::numbers::{BAD_FIELD, BUFFER_SHORT, NOT_A_STORE, NO_SUCH_PART};
use super::queries::types;
use super::tables::Set;
use super::texts::Coding;
use items::{table_items, Item};

#[cfg(test)]
mod cut_tests;
#[cfg(test)]
mod tests;

/// The bytes of a message before its first parameter.
pub const REPORT_HEAD: usize = 10;

/// How many messages the report has, and the bytes of the one that was written.
#[derive(Clone, Copy, Debug, PartialEq, Eq)]
pub struct Reported {
    pub total: u8,
    pub length: usize,
}

/// What the call answers.
pub type Told = Result<Reported, u8>;

/// The call: writes the message of this index, from 1, at the buffer's start; or 15, 11, 12, 13, 14, 1, 4 or 16, and writes nothing.
pub fn report(query: &[u8], index: u32, is_store: bool, set: &Set, buffer: &mut [u8]) -> Told {
    if buffer.len() < set.limits.message {
        return Err(BUFFER_SHORT);
    }
    if !is_store {
        return Err(NOT_A_STORE);
    }
    let messages = messages(types(query, set.limits)?, set).ok_or(BAD_FIELD)?;
    let place = (index as usize).checked_sub(1).ok_or(NO_SUCH_PART)?;
    let message = messages.get(place).ok_or(NO_SUCH_PART)?;
    buffer[..message.len()].copy_from_slice(message);
    Ok(Reported { total: messages.len() as u8, length: message.len() })
}

/// All messages of the report to these types; nothing where there are over 255.
pub fn messages(types: &[u8], set: &Set) -> Option<Vec<Vec<u8>>> {
    let parameters = asked(types, set).iter().map(Item::bytes).collect();
    let packets = cut(parameters, set.limits.message);
    let total = u8::try_from(packets.len()).ok()?;
    Some((1..=total).zip(&packets).map(|(index, some)| message(total, index, some)).collect())
}

/// What is reported of these types, one behind the other; the first unknown one is reported as such and ends it.
pub fn asked(types: &[u8], set: &Set) -> Vec<Item> {
    let mut items = Vec::new();
    for &byte in types {
        let Some(some) = table_items(byte, set) else {
            items.push(Item::Unknown(byte));
            break;
        };
        items.extend(some);
    }
    items
}

/// What ParamSum can say.
const MOST_PARAMETERS: usize = 255;

/// Each message takes every parameter that still fits; nothing to report is one message without parameters.
fn cut(parameters: Vec<Vec<u8>>, longest: usize) -> Vec<Vec<Vec<u8>>> {
    let mut packets = Vec::new();
    let mut packet: Vec<Vec<u8>> = Vec::new();
    let mut length = REPORT_HEAD;
    for parameter in parameters {
        if packet.len() == MOST_PARAMETERS || length + parameter.len() > longest {
            packets.push(std::mem::take(&mut packet));
            length = REPORT_HEAD;
        }
        length += parameter.len();
        packet.push(parameter);
    }
    packets.push(packet);
    packets
}

fn message(total: u8, index: u8, parameters: &[Vec<u8>]) -> Vec<u8> {
    let head = vec![first_byte(REPORT), total, index, parameters.len() as u8];
    carry(Coding::Unicode.number(), &[head, parameters.concat()].concat())
}
