//! The thirteen settings, the DataLengths that they may have, and reading one.

pub(super) mod readers;
#[cfg(test)]
mod tests;

use super::bits::BitReader;
use super::message::Hash;
use super::plan::{GroupAddress, IndividualAddress};
use super::texts::{Coding, Text};
use std::ops::RangeInclusive;

pub const MOST_DIGITS: usize = 18;

/// The attribute of a group that has no row on the screen; of 00 there is none.
pub const BACKGROUND: u8 = 0b01;

#[derive(Clone, Copy, Debug, PartialEq, Eq)]
pub enum Operation {
    Add,
    Delete,
    Replace,
}

/// What C8 and D1 say of a group beside its address and text.
#[derive(Clone, Copy, Debug, Default, PartialEq, Eq)]
pub struct GroupFlags {
    pub attribute: u8,
    pub broadcast: bool,
    pub encryption: bool,
    pub ovcm: bool,
    pub emergency: bool,
    pub priority: u8,
}

/// The same of an individual, in C9 and D2.
#[derive(Clone, Copy, Debug, Default, PartialEq, Eq)]
pub struct IndividualFlags {
    pub encryption: bool,
    pub emergency: bool,
    pub priority: u8,
}

/// The same of a line, in CA and D3.
#[derive(Clone, Copy, Debug, Default, PartialEq, Eq)]
pub struct LineFlags {
    pub encryption: bool,
    pub emergency: bool,
    pub priority: u8,
    pub pabx: bool,
}

/// One of the contacts of C8 or C9; the flags stand once for all of them.
#[derive(Clone, Debug, PartialEq, Eq)]
pub struct ContactEntry<Address> {
    pub address: Address,
    pub text: Text,
}

#[derive(Clone, Debug, PartialEq, Eq)]
pub struct LineEntry {
    pub digits: Vec<u8>,
    pub text: Text,
}

/// CB; without an address the current group is called.
#[derive(Clone, Copy, Debug, Default, PartialEq, Eq)]
pub struct EmergencyKey {
    pub group: bool,
    pub voice: bool,
    pub status: bool,
    pub siren: bool,
    pub address: Option<u32>,
}

#[derive(Clone, Copy, Debug, Default, PartialEq, Eq)]
pub struct HomeNumbers {
    pub nzi: u16,
    pub np: u16,
}

#[derive(Clone, Copy, Debug, Default, PartialEq, Eq)]
pub struct SystemCode {
    pub lai: u16,
    pub la: u8,
    pub roaming: u8,
    pub par: bool,
}

/// A quick text by index or a status text by code.
#[derive(Clone, Debug, PartialEq, Eq)]
pub struct TextEntry {
    pub key: u8,
    pub text: Text,
}

/// A group as it is held, in a slot or among the contacts.
#[derive(Clone, Debug, PartialEq, Eq)]
pub struct GroupSlot {
    pub attribute: u8,
    pub broadcast: bool,
    pub encryption: bool,
    pub ovcm: bool,
    pub emergency: bool,
    pub priority: u8,
    pub address: GroupAddress,
    pub text: Text,
}

/// An individual as it is held, in a slot or among the contacts.
#[derive(Clone, Debug, PartialEq, Eq)]
pub struct IndividualSlot {
    pub encryption: bool,
    pub emergency: bool,
    pub priority: u8,
    pub address: IndividualAddress,
    pub text: Text,
}

/// A line as it is held, in a slot or among the contacts.
#[derive(Clone, Debug, PartialEq, Eq)]
pub struct Line {
    pub digits: Vec<u8>,
    pub flags: LineFlags,
    pub text: Text,
}

#[derive(Clone, Debug, PartialEq, Eq)]
pub struct LastItem {
    pub reboot: bool,
    pub reply: bool,
    pub hash: Hash,
}

/// A setting once read; a slot with nothing in it is a delete.
#[derive(Clone, Debug, PartialEq, Eq)]
pub enum Setting {
    GroupContacts {
        operation: Operation,
        flags: GroupFlags,
        entries: Vec<ContactEntry<GroupAddress>>,
    },
    IndividualContacts {
        operation: Operation,
        flags: IndividualFlags,
        entries: Vec<ContactEntry<IndividualAddress>>,
    },
    Lines {
        operation: Operation,
        flags: LineFlags,
        entries: Vec<LineEntry>,
    },
    Emergency(EmergencyKey),
    QuickTexts {
        operation: Operation,
        entries: Vec<TextEntry>,
    },
    Home(HomeNumbers),
    Channels {
        operation: Operation,
        channels: Vec<u16>,
    },
    System(SystemCode),
    StatusTexts {
        operation: Operation,
        entries: Vec<TextEntry>,
    },
    Group {
        index: u8,
        slot: Option<GroupSlot>,
    },
    Individual {
        index: u8,
        slot: Option<IndividualSlot>,
    },
    LineSlot {
        index: u8,
        slot: Option<Line>,
    },
    Last(LastItem),
}

#[derive(Clone, Copy, Debug, PartialEq, Eq)]
pub enum Fault {
    UnknownType,
    Field,
}

impl GroupFlags {
    /// The group of this address, with these flags.
    pub fn of(self, address: GroupAddress, text: Text) -> GroupSlot {
        let GroupFlags { attribute, broadcast, encryption, ovcm, emergency, priority } = self;
        GroupSlot { attribute, broadcast, encryption, ovcm, emergency, priority, address, text }
    }
}

impl GroupSlot {
    pub fn flags(&self) -> GroupFlags {
        GroupFlags {
            attribute: self.attribute,
            broadcast: self.broadcast,
            encryption: self.encryption,
            ovcm: self.ovcm,
            emergency: self.emergency,
            priority: self.priority,
        }
    }
}

impl IndividualFlags {
    /// The individual of this address, with these flags.
    pub fn of(self, address: IndividualAddress, text: Text) -> IndividualSlot {
        let IndividualFlags { encryption, emergency, priority } = self;
        IndividualSlot { encryption, emergency, priority, address, text }
    }
}

impl IndividualSlot {
    pub fn flags(&self) -> IndividualFlags {
        IndividualFlags {
            encryption: self.encryption,
            emergency: self.emergency,
            priority: self.priority,
        }
    }
}

impl Line {
    /// What tells lines apart: IDtype, true for PABX, and digits (document 02, A3).
    pub fn key(&self) -> (bool, &[u8]) {
        (self.flags.pabx, &self.digits)
    }
}

/// The DataLengths that a type may have; those of D1, D2 and D3, which end with one text, go by its coding type.
pub fn bounds(kind: u8, coding: Coding) -> RangeInclusive<usize> {
    const ANY: usize = u16::MAX as usize;
    match (kind, coding) {
        (0xC8, _) => 5..=ANY,
        (0xCB, _) => 3..=6,
        (0xCC, _) => 3..=ANY,
        (0xCD | 0xCF, _) => 5..=5,
        (0xD1 | 0xD2, Coding::Eight) => 8..=24,
        (0xD1 | 0xD2, Coding::Unicode) => 9..=41,
        (0xD3, Coding::Eight) => 6..=31,
        (0xD3, Coding::Unicode) => 7..=48,
        (0xFF, _) => 3..=13,
        _ => 4..=ANY,
    }
}

/// Reads one setting at the start of `bytes`, and says how many bytes it took.
pub fn parse(bytes: &[u8], coding: Coding, is_last: bool) -> Result<(Setting, usize), Fault> {
    let kind = *bytes.first().ok_or(Fault::Field)?;
    if !matches!(kind, 0xC8..=0xD3 | 0xFF) {
        return Err(Fault::UnknownType);
    }
    let mut bits = BitReader::new(&bytes[1..]);
    let (length, setting) = read_fields(kind, coding, &mut bits).ok_or(Fault::Field)?;
    // DataLength is only ever compared, never used to skip.
    if length != bits.bytes_read() || (kind == 0xFF && !is_last) {
        return Err(Fault::Field);
    }
    Ok((setting, 1 + length))
}

fn read_fields(kind: u8, coding: Coding, bits: &mut BitReader) -> Option<(usize, Setting)> {
    let length = bits.bits(16).map(|length| length as usize)?;
    if !bounds(kind, coding).contains(&length) {
        return None;
    }
    Some((length, readers::read_body(kind, coding, bits)?))
}
