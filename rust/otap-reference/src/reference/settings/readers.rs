//! The fields of each type behind DataLength, with every range held.

use super::*;
use crate::reference::texts::{QUICK_TEXT, SHORT_TEXT};

pub fn read_body(kind: u8, coding: Coding, bits: &mut BitReader) -> Option<Setting> {
    match kind {
        0xC8 => read_group_contacts(coding, bits),
        0xC9 => read_individual_contacts(coding, bits),
        0xCA => read_lines(coding, bits),
        0xCB => read_emergency(bits),
        0xCC => read_quick_texts(coding, bits),
        0xCD => read_home(bits).map(Setting::Home),
        0xCE => read_channels(bits),
        0xCF => read_system(bits).map(Setting::System),
        0xD0 => read_status_texts(coding, bits),
        0xD1 => read_group(coding, bits),
        0xD2 => read_individual(coding, bits),
        0xD3 => read_line_slot(coding, bits),
        _ => read_last(bits),
    }
}

fn read_group_contacts(coding: Coding, bits: &mut BitReader) -> Option<Setting> {
    let operation = read_operation(bits)?;
    // Held also in a delete, and where no contact follows.
    let flags = read_group_flags(bits).filter(|flags| flags.attribute != 0)?;
    bits.bits(6)?;
    let entries = read_contacts(coding, bits, GroupAddress)?;
    Some(Setting::GroupContacts { operation, flags, entries })
}

fn read_individual_contacts(coding: Coding, bits: &mut BitReader) -> Option<Setting> {
    let operation = read_operation(bits)?;
    let flags = read_individual_flags(bits)?;
    bits.bits(2)?;
    let entries = read_contacts(coding, bits, IndividualAddress)?;
    Some(Setting::IndividualContacts { operation, flags, entries })
}

/// Count, then as many addresses, each with its text; a delete's are held to their ranges too.
fn read_contacts<Address>(
    coding: Coding,
    bits: &mut BitReader,
    address: fn(u32) -> Address,
) -> Option<Vec<ContactEntry<Address>>> {
    let count = bits.bits(8)?;
    let mut entry = || {
        Some(ContactEntry {
            address: read_address(bits).map(address)?,
            text: coding.read_text(bits, SHORT_TEXT)?,
        })
    };
    (0..count).map(|_| entry()).collect()
}

fn read_lines(coding: Coding, bits: &mut BitReader) -> Option<Setting> {
    let operation = read_operation(bits)?;
    let flags = read_line_flags(bits)?;
    bits.bits(1)?;
    let count = bits.bits(8)?;
    let entries = (0..count)
        .map(|_| {
            Some(LineEntry {
                digits: read_digits(bits)?,
                text: coding.read_text(bits, SHORT_TEXT)?,
            })
        })
        .collect::<Option<_>>()?;
    Some(Setting::Lines { operation, flags, entries })
}

fn read_emergency(bits: &mut BitReader) -> Option<Setting> {
    let current = bits.flag()?;
    let mut key = EmergencyKey {
        group: bits.flag()?,
        voice: bits.flag()?,
        status: bits.flag()?,
        siren: bits.flag()?,
        address: None,
    };
    bits.bits(3)?;
    if !current {
        key.address = Some(read_address(bits)?);
    }
    Some(Setting::Emergency(key))
}

fn read_quick_texts(coding: Coding, bits: &mut BitReader) -> Option<Setting> {
    let operation = read_operation(bits)?;
    let count = bits.bits(6)?;
    let entries = (0..count)
        .map(|_| {
            bits.bits(2)?;
            let key = bits.bits(6)? as u8;
            let text = coding.read_text(bits, QUICK_TEXT)?;
            let allowed = operation == Operation::Delete || !text.is_empty();
            allowed.then_some(TextEntry { key, text })
        })
        .collect::<Option<_>>()?;
    Some(Setting::QuickTexts { operation, entries })
}

pub fn read_home(bits: &mut BitReader) -> Option<HomeNumbers> {
    let home = HomeNumbers { nzi: bits.bits(9)? as u16, np: bits.bits(10)? as u16 };
    bits.bits(5)?;
    (home.np <= 806).then_some(home)
}

fn read_channels(bits: &mut BitReader) -> Option<Setting> {
    let operation = read_operation(bits)?;
    bits.bits(4)?;
    let count = bits.bits(10)?;
    let channels = (0..count).map(|_| read_channel(bits)).collect::<Option<_>>()?;
    if count % 2 == 1 && bits.bits(4)? != 0b1111 {
        return None;
    }
    Some(Setting::Channels { operation, channels })
}

pub fn read_channel(bits: &mut BitReader) -> Option<u16> {
    bits.bits(12).map(|channel| channel as u16).filter(|channel| (241..=640).contains(channel))
}

pub fn read_system(bits: &mut BitReader) -> Option<SystemCode> {
    let code = SystemCode {
        lai: bits.bits(12)? as u16,
        la: bits.bits(4)? as u8,
        roaming: bits.bits(2)? as u8,
        par: bits.flag()?,
    };
    bits.bits(5)?;
    (code.la <= 8 && code.roaming != 0b11).then_some(code)
}

fn read_status_texts(coding: Coding, bits: &mut BitReader) -> Option<Setting> {
    let operation = read_operation(bits)?;
    bits.bits(6)?;
    let count = bits.bits(8)?;
    let entries = (0..count)
        .map(|_| {
            let key = read_code(bits)?;
            Some(TextEntry { key, text: coding.read_text(bits, SHORT_TEXT)? })
        })
        .collect::<Option<_>>()?;
    Some(Setting::StatusTexts { operation, entries })
}

/// Of a status text.
pub fn read_code(bits: &mut BitReader) -> Option<u8> {
    bits.byte().filter(|code| (32..=127).contains(code))
}

fn read_group(coding: Coding, bits: &mut BitReader) -> Option<Setting> {
    let operation = read_slot_operation(bits)?;
    let flags = read_group_flags(bits)?;
    bits.bits(2)?;
    let index = bits.bits(4)? as u8;
    let address = bits.bits(24)?;
    let text = coding.read_text(bits, SHORT_TEXT)?;
    // In a delete only the index counts, but the text was held to its form above.
    if operation == Operation::Delete {
        return Some(Setting::Group { index, slot: None });
    }
    let slot = flags.of(GroupAddress(address), text);
    let allowed = flags.attribute != 0 && is_address(address);
    allowed.then_some(Setting::Group { index, slot: Some(slot) })
}

fn read_individual(coding: Coding, bits: &mut BitReader) -> Option<Setting> {
    let operation = read_slot_operation(bits)?;
    let flags = read_individual_flags(bits)?;
    bits.bits(6)?;
    let index = bits.bits(4)? as u8;
    let address = bits.bits(24)?;
    let text = coding.read_text(bits, SHORT_TEXT)?;
    // In a delete only the index counts, but the text was held to its form above.
    if operation == Operation::Delete {
        return Some(Setting::Individual { index, slot: None });
    }
    let slot = flags.of(IndividualAddress(address), text);
    is_address(address).then_some(Setting::Individual { index, slot: Some(slot) })
}

/// A delete is held to the ranges of an add: no sentence frees it, as D1's and D2's are freed.
fn read_line_slot(coding: Coding, bits: &mut BitReader) -> Option<Setting> {
    let operation = read_slot_operation(bits)?;
    let flags = read_line_flags(bits)?;
    bits.bits(5)?;
    let index = bits.bits(4)? as u8;
    let digits = read_digits(bits)?;
    let text = coding.read_text(bits, SHORT_TEXT)?;
    let slot = (operation == Operation::Add).then_some(Line { digits, flags, text });
    Some(Setting::LineSlot { index, slot })
}

fn read_last(bits: &mut BitReader) -> Option<Setting> {
    Some(Setting::Last(LastItem {
        reboot: bits.flag()?,
        reply: bits.flag()?,
        hash: Hash::read(bits)?,
    }))
}

fn read_operation(bits: &mut BitReader) -> Option<Operation> {
    match bits.bits(2)? {
        0b01 => Some(Operation::Add),
        0b10 => Some(Operation::Delete),
        0b11 => Some(Operation::Replace),
        _ => None,
    }
}

/// Add or delete; a slot is not replaced.
fn read_slot_operation(bits: &mut BitReader) -> Option<Operation> {
    read_operation(bits).filter(|&operation| operation != Operation::Replace)
}

pub fn read_group_flags(bits: &mut BitReader) -> Option<GroupFlags> {
    Some(GroupFlags {
        attribute: bits.bits(2)? as u8,
        broadcast: bits.flag()?,
        encryption: bits.flag()?,
        ovcm: bits.flag()?,
        emergency: bits.flag()?,
        priority: bits.bits(2)? as u8,
    })
}

pub fn read_individual_flags(bits: &mut BitReader) -> Option<IndividualFlags> {
    Some(IndividualFlags {
        encryption: bits.flag()?,
        emergency: bits.flag()?,
        priority: bits.bits(2)? as u8,
    })
}

fn read_line_flags(bits: &mut BitReader) -> Option<LineFlags> {
    Some(LineFlags {
        encryption: bits.flag()?,
        emergency: bits.flag()?,
        priority: bits.bits(2)? as u8,
        pabx: bits.flag()?,
    })
}

pub fn read_digits(bits: &mut BitReader) -> Option<Vec<u8>> {
    let mut digits = Vec::with_capacity(MOST_DIGITS);
    loop {
        match bits.bits(4)? as u8 {
            digit @ 0..=9 if digits.len() < MOST_DIGITS => digits.push(digit),
            0b1111 if !digits.is_empty() => break,
            _ => return None,
        }
    }
    // The digits and one end digit fill whole bytes only if the digits are odd in number.
    if digits.len() % 2 == 0 && bits.bits(4)? != 0b1111 {
        return None;
    }
    Some(digits)
}

pub fn read_address(bits: &mut BitReader) -> Option<u32> {
    bits.bits(24).filter(|&address| is_address(address))
}

fn is_address(address: u32) -> bool {
    address >= 0x10_0000 && address & 0x7FFF != 0
}
