//! Writing the thirteen settings, for the exports and the tests.

use super::bits::BitWriter;
use super::plan::{GroupAddress, IndividualAddress};
use super::settings::{
    ContactEntry, EmergencyKey, GroupFlags, GroupSlot, HomeNumbers, IndividualFlags,
    IndividualSlot, LastItem, Line, LineEntry, LineFlags, Operation, Setting, SystemCode,
    TextEntry,
};
use super::texts::Coding;

impl Setting {
    /// The writing under 0111, which every text of units has.
    pub fn write(&self) -> Vec<u8> {
        self.write_as(Coding::Unicode).expect("no unit is 0")
    }

    /// The type byte, DataLength and fields, reserved bits 0; nothing where a text has no writing under the coding type.
    pub fn write_as(&self, coding: Coding) -> Option<Vec<u8>> {
        let mut bits = BitWriter::new();
        let kind = self.write_fields(coding, &mut bits)?;
        let fields = bits.finish();
        let mut bytes = vec![kind];
        bytes.extend((fields.len() as u16 + 2).to_be_bytes());
        bytes.extend(fields);
        Some(bytes)
    }

    fn write_fields(&self, coding: Coding, bits: &mut BitWriter) -> Option<u8> {
        match self {
            Setting::GroupContacts { operation, flags, entries } => {
                write_group_contacts(coding, bits, *operation, flags, entries)
            }
            Setting::IndividualContacts { operation, flags, entries } => {
                write_individual_contacts(coding, bits, *operation, flags, entries)
            }
            Setting::Lines { operation, flags, entries } => {
                write_lines(coding, bits, *operation, flags, entries)
            }
            Setting::Emergency(key) => Some(write_emergency(bits, key)),
            Setting::QuickTexts { operation, entries } => {
                write_quick_texts(coding, bits, *operation, entries)
            }
            Setting::Home(home) => Some(write_home(bits, home)),
            Setting::Channels { operation, channels } => {
                Some(write_channels(bits, *operation, channels))
            }
            Setting::System(code) => Some(write_system(bits, code)),
            Setting::StatusTexts { operation, entries } => {
                write_status_texts(coding, bits, *operation, entries)
            }
            Setting::Group { index, slot } => write_group(coding, bits, *index, slot.as_ref()),
            Setting::Individual { index, slot } => {
                write_individual(coding, bits, *index, slot.as_ref())
            }
            Setting::LineSlot { index, slot } => {
                write_line_slot(coding, bits, *index, slot.as_ref())
            }
            Setting::Last(item) => Some(write_last(bits, item)),
        }
    }
}

fn write_group_contacts(
    coding: Coding,
    bits: &mut BitWriter,
    operation: Operation,
    flags: &GroupFlags,
    entries: &[ContactEntry<GroupAddress>],
) -> Option<u8> {
    write_operation(bits, operation);
    write_group_flags(bits, flags);
    bits.bits(0, 6);
    write_contacts(coding, bits, entries, |address| address.0)?;
    Some(0xC8)
}

fn write_individual_contacts(
    coding: Coding,
    bits: &mut BitWriter,
    operation: Operation,
    flags: &IndividualFlags,
    entries: &[ContactEntry<IndividualAddress>],
) -> Option<u8> {
    write_operation(bits, operation);
    write_individual_flags(bits, flags);
    bits.bits(0, 2);
    write_contacts(coding, bits, entries, |address| address.0)?;
    Some(0xC9)
}

/// Count, then each address with its text.
fn write_contacts<Address: Copy>(
    coding: Coding,
    bits: &mut BitWriter,
    entries: &[ContactEntry<Address>],
    number: fn(Address) -> u32,
) -> Option<()> {
    bits.bits(entries.len() as u32, 8);
    for entry in entries {
        bits.bits(number(entry.address), 24);
        coding.write_text(bits, &entry.text)?;
    }
    Some(())
}

fn write_lines(
    coding: Coding,
    bits: &mut BitWriter,
    operation: Operation,
    flags: &LineFlags,
    entries: &[LineEntry],
) -> Option<u8> {
    write_operation(bits, operation);
    write_line_flags(bits, flags);
    bits.bits(0, 1);
    bits.bits(entries.len() as u32, 8);
    for entry in entries {
        write_digits(bits, &entry.digits);
        coding.write_text(bits, &entry.text)?;
    }
    Some(0xCA)
}

fn write_emergency(bits: &mut BitWriter, key: &EmergencyKey) -> u8 {
    bits.flag(key.address.is_none());
    for flag in [key.group, key.voice, key.status, key.siren] {
        bits.flag(flag);
    }
    bits.bits(0, 3);
    if let Some(address) = key.address {
        bits.bits(address, 24);
    }
    0xCB
}

fn write_quick_texts(
    coding: Coding,
    bits: &mut BitWriter,
    operation: Operation,
    entries: &[TextEntry],
) -> Option<u8> {
    write_operation(bits, operation);
    bits.bits(entries.len() as u32, 6);
    for entry in entries {
        bits.bits(0, 2);
        bits.bits(u32::from(entry.key), 6);
        coding.write_text(bits, &entry.text)?;
    }
    Some(0xCC)
}

pub(super) fn write_home(bits: &mut BitWriter, home: &HomeNumbers) -> u8 {
    bits.bits(u32::from(home.nzi), 9);
    bits.bits(u32::from(home.np), 10);
    bits.bits(0, 5);
    0xCD
}

fn write_channels(bits: &mut BitWriter, operation: Operation, channels: &[u16]) -> u8 {
    write_operation(bits, operation);
    bits.bits(0, 4);
    bits.bits(channels.len() as u32, 10);
    for &channel in channels {
        bits.bits(u32::from(channel), 12);
    }
    if !bits.is_whole() {
        bits.bits(0b1111, 4);
    }
    0xCE
}

pub(super) fn write_system(bits: &mut BitWriter, code: &SystemCode) -> u8 {
    bits.bits(u32::from(code.lai), 12);
    bits.bits(u32::from(code.la), 4);
    bits.bits(u32::from(code.roaming), 2);
    bits.flag(code.par);
    bits.bits(0, 5);
    0xCF
}

fn write_status_texts(
    coding: Coding,
    bits: &mut BitWriter,
    operation: Operation,
    entries: &[TextEntry],
) -> Option<u8> {
    write_operation(bits, operation);
    bits.bits(0, 6);
    bits.bits(entries.len() as u32, 8);
    for entry in entries {
        bits.bits(u32::from(entry.key), 8);
        coding.write_text(bits, &entry.text)?;
    }
    Some(0xD0)
}

fn write_group(
    coding: Coding,
    bits: &mut BitWriter,
    index: u8,
    slot: Option<&GroupSlot>,
) -> Option<u8> {
    write_operation(bits, slot_operation(slot));
    write_group_flags(bits, &slot.map(GroupSlot::flags).unwrap_or_default());
    bits.bits(0, 2);
    bits.bits(u32::from(index), 4);
    bits.bits(slot.map_or(0, |slot| slot.address.0), 24);
    coding.write_text(bits, slot.map_or(&[], |slot| &slot.text[..]))?;
    Some(0xD1)
}

fn write_individual(
    coding: Coding,
    bits: &mut BitWriter,
    index: u8,
    slot: Option<&IndividualSlot>,
) -> Option<u8> {
    write_operation(bits, slot_operation(slot));
    write_individual_flags(bits, &slot.map(IndividualSlot::flags).unwrap_or_default());
    bits.bits(0, 6);
    bits.bits(u32::from(index), 4);
    bits.bits(slot.map_or(0, |slot| slot.address.0), 24);
    coding.write_text(bits, slot.map_or(&[], |slot| &slot.text[..]))?;
    Some(0xD2)
}

/// A delete has the number 0, for an empty number is out of range.
fn write_line_slot(
    coding: Coding,
    bits: &mut BitWriter,
    index: u8,
    slot: Option<&Line>,
) -> Option<u8> {
    write_operation(bits, slot_operation(slot));
    write_line_flags(bits, &slot.map(|line| line.flags).unwrap_or_default());
    bits.bits(0, 5);
    bits.bits(u32::from(index), 4);
    write_digits(bits, slot.map_or(&[0], |line| &line.digits[..]));
    coding.write_text(bits, slot.map_or(&[], |line| &line.text[..]))?;
    Some(0xD3)
}

fn write_last(bits: &mut BitWriter, item: &LastItem) -> u8 {
    bits.flag(item.reboot);
    bits.flag(item.reply);
    item.hash.write(bits);
    0xFF
}

fn slot_operation<T>(slot: Option<&T>) -> Operation {
    if slot.is_some() {
        Operation::Add
    } else {
        Operation::Delete
    }
}

pub(super) fn write_group_flags(bits: &mut BitWriter, flags: &GroupFlags) {
    bits.bits(u32::from(flags.attribute), 2);
    for flag in [flags.broadcast, flags.encryption, flags.ovcm, flags.emergency] {
        bits.flag(flag);
    }
    bits.bits(u32::from(flags.priority), 2);
}

pub(super) fn write_individual_flags(bits: &mut BitWriter, flags: &IndividualFlags) {
    bits.flag(flags.encryption);
    bits.flag(flags.emergency);
    bits.bits(u32::from(flags.priority), 2);
}

fn write_line_flags(bits: &mut BitWriter, flags: &LineFlags) {
    bits.flag(flags.encryption);
    bits.flag(flags.emergency);
    bits.bits(u32::from(flags.priority), 2);
    bits.flag(flags.pabx);
}

fn write_operation(bits: &mut BitWriter, operation: Operation) {
    let value = match operation {
        Operation::Add => 0b01,
        Operation::Delete => 0b10,
        Operation::Replace => 0b11,
    };
    bits.bits(value, 2);
}

pub(super) fn write_digits(bits: &mut BitWriter, digits: &[u8]) {
    digits.iter().for_each(|&digit| bits.bits(u32::from(digit), 4));
    bits.bits(0b1111, 4);
    if !bits.is_whole() {
        bits.bits(0b1111, 4);
    }
}
