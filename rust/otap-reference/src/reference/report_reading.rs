//! The office's reader of reports (document 02, A8): one message at a time, without the query.

use super::bits::BitReader;
use super::limits::Limits;
use super::message::{of_kind, Hash, Opened, REPORT};
use super::numbers::BAD_FIELD;
use super::plan::{GroupAddress, IndividualAddress};
use super::reports::items::{asks, Item, FAILED, GOOD};
use super::reports::REPORT_HEAD;
use super::settings::readers::{
    read_address, read_channel, read_code, read_digits, read_group_flags, read_home,
    read_individual_flags, read_system,
};
use super::settings::{EmergencyKey, Line, LineFlags, TextEntry};
use super::texts::{Coding, Text, QUICK_TEXT, SHORT_TEXT};
use std::ops::Range;

#[cfg(test)]
mod damage_tests;
#[cfg(test)]
mod tests;

/// What a message of a report says.
#[derive(Clone, Debug, PartialEq, Eq)]
pub struct ReadReport {
    pub total: u8,
    pub index: u8,
    pub entries: Vec<Entry>,
}

impl ReadReport {
    /// Its parameters, without their places.
    pub fn items(&self) -> Vec<Item> {
        self.entries.iter().map(|entry| entry.item.clone()).collect()
    }
}

/// A parameter and where it stands.
#[derive(Clone, Debug, PartialEq, Eq)]
pub struct Entry {
    pub item: Item,
    pub places: Places,
}

/// Bytes of the message, from 0.
#[derive(Clone, Debug, PartialEq, Eq)]
pub struct Places {
    /// The byte behind the parameter.
    pub behind: usize,
    /// Its text without the end, empty where the text is.
    pub text: Option<Range<usize>>,
    /// The first byte of its digits, or of the hash value where one is kept.
    pub number: Option<usize>,
}

/// The call: what a message of such a set's report says; or 12, 13, 14, 1 or 4.
pub fn read(message: &[u8], limits: Limits) -> Result<ReadReport, u8> {
    let opened = of_kind(message, limits, REPORT)?;
    report_in(message, &opened).ok_or(BAD_FIELD)
}

fn report_in(message: &[u8], opened: &Opened) -> Option<ReadReport> {
    let &[total, index, sum, ..] = opened.body else { return None };
    let is_numbered = (1..=total).contains(&index);
    // Only a report of nothing at all has no parameter, and it is one message.
    let is_counted = sum != 0 || total == 1;
    if opened.coding != Coding::Unicode.number() || !is_numbered || !is_counted {
        return None;
    }
    let entries = entries(message, sum)?;
    (first_error(&entries) + usize::from(index == total) >= entries.len()).then_some(ReadReport {
        total,
        index,
        entries,
    })
}

/// As many parameters as are counted, and nothing behind them.
fn entries(message: &[u8], sum: u8) -> Option<Vec<Entry>> {
    let mut at = REPORT_HEAD;
    let mut entries = Vec::new();
    for _ in 0..sum {
        let entry = entry_at(message, at)?;
        at = entry.places.behind;
        entries.push(entry);
    }
    (at == message.len()).then_some(entries)
}

/// The place of the first error, or how many entries there are: in the last message it may be the last entry.
fn first_error(entries: &[Entry]) -> usize {
    entries.iter().take_while(|entry| !entry.item.is_error()).count()
}

/// The parameter in range that starts at a byte, by the bytes from there on alone.
pub fn entry_at(message: &[u8], at: usize) -> Option<Entry> {
    let mut bits = BitReader::new(message.get(at..)?);
    let item = read_item(&mut bits)?;
    let places = places(&item, at, at + bits.bytes_read());
    Some(Entry { item, places })
}

fn places(item: &Item, at: usize, behind: usize) -> Places {
    let text = text_of(item).map(|text| {
        let end = behind - 2;
        end - 2 * text.len()..end
    });
    let number = match item {
        Item::LineContact { .. } => Some(at + 4),
        Item::KeptHash(hash) if *hash != Hash::Nothing => Some(at + 3),
        _ => None,
    };
    Places { behind, text, number }
}

fn text_of(item: &Item) -> Option<&Text> {
    match item {
        Item::GroupContact { slot, .. } => Some(&slot.text),
        Item::IndividualContact { slot, .. } => Some(&slot.text),
        Item::LineContact { line, .. } => Some(&line.text),
        Item::QuickText(entry) | Item::StatusText { entry, .. } => Some(&entry.text),
        _ => None,
    }
}

/// The byte behind the type tells an error from all else: neither a good result nor a ListCount is 83.
fn read_item(bits: &mut BitReader) -> Option<Item> {
    let kind = bits.byte()?;
    match (kind, bits.byte()?) {
        (_, FAILED) => (!asks(kind)).then_some(Item::Unknown(kind)),
        (0x88, GOOD) => read_group(bits),
        (0x89, GOOD) => read_individual(bits),
        (0x8A, GOOD) => read_line(bits),
        (0x8B, GOOD) => read_key(bits),
        (0x8C, GOOD) => read_quick_text(bits),
        (0x8D, GOOD) => read_home(bits).map(Item::HomeNumbers),
        (0x8E, GOOD) => {
            let channel = read_channel(bits)?;
            Some(Item::Channel { index: bits.bits(12)? as u16, channel })
        }
        (0x8F, GOOD) => read_system(bits).map(Item::SystemCode),
        (0x90, GOOD) => {
            let (key, index) = (read_code(bits)?, bits.byte()?);
            let entry = TextEntry { key, text: read_text(bits)? };
            Some(Item::StatusText { index, entry })
        }
        (0xBF, count) => read_hash(bits, count).map(Item::KeptHash),
        _ => None,
    }
}

fn read_text(bits: &mut BitReader) -> Option<Text> {
    Coding::Unicode.read_text(bits, SHORT_TEXT)
}

fn read_group(bits: &mut BitReader) -> Option<Item> {
    let address = read_address(bits).map(GroupAddress)?;
    let index = bits.bits(4)? as u8;
    let flags = read_group_flags(bits).filter(|flags| flags.attribute != 0)?;
    bits.bits(4)?;
    Some(Item::GroupContact { index, slot: flags.of(address, read_text(bits)?) })
}

fn read_individual(bits: &mut BitReader) -> Option<Item> {
    let address = read_address(bits).map(IndividualAddress)?;
    let index = bits.bits(4)? as u8;
    let flags = read_individual_flags(bits)?;
    Some(Item::IndividualContact { index, slot: flags.of(address, read_text(bits)?) })
}

fn read_line(bits: &mut BitReader) -> Option<Item> {
    let (pabx, encryption, emergency) = (bits.flag()?, bits.flag()?, bits.flag()?);
    let flags = LineFlags { pabx, encryption, emergency, priority: bits.bits(2)? as u8 };
    bits.bits(7)?;
    let index = bits.bits(4)? as u8;
    let digits = read_digits(bits)?;
    Some(Item::LineContact { index, line: Line { digits, flags, text: read_text(bits)? } })
}

/// With the current place the address is there too, and is 0.
fn read_key(bits: &mut BitReader) -> Option<Item> {
    let (group, current) = (bits.flag()?, bits.flag()?);
    let (voice, status, siren) = (bits.flag()?, bits.flag()?, bits.flag()?);
    bits.bits(3)?;
    let address = if current {
        bits.bits(24).filter(|&address| address == 0)?;
        None
    } else {
        Some(read_address(bits)?)
    };
    Some(Item::EmergencyKey(EmergencyKey { group, voice, status, siren, address }))
}

fn read_quick_text(bits: &mut BitReader) -> Option<Item> {
    let key = bits.bits(6)? as u8;
    bits.bits(2)?;
    let text = Coding::Unicode.read_text(bits, QUICK_TEXT).filter(|text| !text.is_empty())?;
    Some(Item::QuickText(TextEntry { key, text }))
}

/// A list of none or of one; HashCode has 8 bits here, and 0 is no hash to list.
fn read_hash(bits: &mut BitReader, count: u8) -> Option<Hash> {
    match count {
        0 => Some(Hash::Nothing),
        1 => {
            let code = bits.bits(8)?;
            Hash::read_value(code, bits).filter(|hash| *hash != Hash::Nothing)
        }
        _ => None,
    }
}
