//! The parameters of a report: which there are for a table, and their bytes.

use crate::reference::bits::BitWriter;
use crate::reference::export::held;
use crate::reference::message::Hash;
use crate::reference::settings::{
    EmergencyKey, GroupSlot, HomeNumbers, IndividualSlot, Line, SystemCode, TextEntry,
};
use crate::reference::tables::{Set, FIRST_STATUS};
use crate::reference::texts::Coding;
use crate::reference::writing::{
    write_digits, write_group_flags, write_home, write_individual_flags, write_system,
};

/// Result and reason of a parameter that is good.
pub const GOOD: u8 = 0;
/// Failed, reason 3: the type is not supported. No other error is ever written.
pub const FAILED: u8 = 0x83;

/// One parameter, with its index field as it stands in the report.
#[derive(Clone, Debug, PartialEq, Eq)]
pub enum Item {
    GroupContact {
        index: u8,
        slot: GroupSlot,
    },
    IndividualContact {
        index: u8,
        slot: IndividualSlot,
    },
    LineContact {
        index: u8,
        line: Line,
    },
    EmergencyKey(EmergencyKey),
    /// Its key is its index.
    QuickText(TextEntry),
    HomeNumbers(HomeNumbers),
    Channel {
        index: u16,
        channel: u16,
    },
    SystemCode(SystemCode),
    /// Its key is the code, its index the rank by code.
    StatusText {
        index: u8,
        entry: TextEntry,
    },
    KeptHash(Hash),
    /// The error of a byte that does not ask.
    Unknown(u8),
}

/// Whether a byte asks for a table.
pub fn asks(byte: u8) -> bool {
    matches!(byte, 0xC8..=0xD0 | 0xFF)
}

/// The type that answers a byte which asks: 88 to 90 and BF.
fn report_type(asked: u8) -> u8 {
    asked - 0x40
}

/// A parameter for each entry of the table that a byte asks for; nothing where it does not ask.
pub fn table_items(byte: u8, set: &Set) -> Option<Vec<Item>> {
    let tables = &set.tables;
    Some(match byte {
        0xC8 => numbered(&tables.group_contacts, |index, slot| Item::GroupContact { index, slot }),
        0xC9 => numbered(&tables.individual_contacts, |index, slot| Item::IndividualContact {
            index,
            slot,
        }),
        0xCA => numbered(&tables.lines, |index, line| Item::LineContact { index, line }),
        0xCB => vec![Item::EmergencyKey(tables.emergency)],
        0xCC => held(&tables.quick_texts, 0).into_iter().map(Item::QuickText).collect(),
        0xCD => vec![Item::HomeNumbers(tables.home)],
        0xCE => {
            let channels = (0..).zip(tables.channels.iter().copied());
            channels.map(|(index, channel)| Item::Channel { index, channel }).collect()
        }
        0xCF => vec![Item::SystemCode(tables.system)],
        0xD0 => {
            let ranked = (0..).zip(held(&tables.status_texts, FIRST_STATUS));
            ranked.map(|(index, entry)| Item::StatusText { index, entry }).collect()
        }
        0xFF => vec![Item::KeptHash(set.hash.clone())],
        _ => return None,
    })
}

/// The entries of a list with their positions in four bits, so that position 16 has 0 again.
fn numbered<T: Clone>(list: &[T], item: fn(u8, T) -> Item) -> Vec<Item> {
    let indexes = (0..16).cycle();
    indexes.zip(list).map(|(index, entry)| item(index, entry.clone())).collect()
}

impl Item {
    /// The byte that asks for it, of an error the byte that was asked.
    pub fn asked(&self) -> u8 {
        match self {
            Item::GroupContact { .. } => 0xC8,
            Item::IndividualContact { .. } => 0xC9,
            Item::LineContact { .. } => 0xCA,
            Item::EmergencyKey(_) => 0xCB,
            Item::QuickText(_) => 0xCC,
            Item::HomeNumbers(_) => 0xCD,
            Item::Channel { .. } => 0xCE,
            Item::SystemCode(_) => 0xCF,
            Item::StatusText { .. } => 0xD0,
            Item::KeptHash(_) => 0xFF,
            Item::Unknown(byte) => *byte,
        }
    }

    pub fn is_error(&self) -> bool {
        matches!(self, Item::Unknown(_))
    }

    /// Its bytes in a report, reserved bits 0.
    pub fn bytes(&self) -> Vec<u8> {
        let mut bits = BitWriter::new();
        match self {
            Item::Unknown(byte) => bits.bytes(&[*byte, FAILED]),
            // It alone has no result.
            Item::KeptHash(hash) => write_hash(&mut bits, hash),
            _ => {
                bits.bytes(&[report_type(self.asked()), GOOD]);
                self.write_fields(&mut bits);
            }
        }
        bits.finish()
    }

    fn write_fields(&self, bits: &mut BitWriter) {
        match self {
            Item::GroupContact { index, slot } => write_group(bits, *index, slot),
            Item::IndividualContact { index, slot } => write_individual(bits, *index, slot),
            Item::LineContact { index, line } => write_line(bits, *index, line),
            Item::EmergencyKey(key) => write_key(bits, key),
            Item::QuickText(entry) => {
                bits.bits(entry.key.into(), 6);
                bits.bits(0, 2);
                write_text(bits, &entry.text);
            }
            Item::HomeNumbers(home) => {
                write_home(bits, home);
            }
            Item::Channel { index, channel } => {
                bits.bits((*channel).into(), 12);
                bits.bits((*index).into(), 12);
            }
            Item::SystemCode(code) => {
                write_system(bits, code);
            }
            Item::StatusText { index, entry } => {
                bits.bytes(&[entry.key, *index]);
                write_text(bits, &entry.text);
            }
            Item::KeptHash(_) | Item::Unknown(_) => unreachable!("they have no such fields"),
        }
    }
}

fn write_group(bits: &mut BitWriter, index: u8, slot: &GroupSlot) {
    bits.bits(slot.address.0, 24);
    bits.bits(index.into(), 4);
    write_group_flags(bits, &slot.flags());
    bits.bits(0, 4);
    write_text(bits, &slot.text);
}

fn write_individual(bits: &mut BitWriter, index: u8, slot: &IndividualSlot) {
    bits.bits(slot.address.0, 24);
    bits.bits(index.into(), 4);
    write_individual_flags(bits, &slot.flags());
    write_text(bits, &slot.text);
}

/// IDtype first, not last as in a setting.
fn write_line(bits: &mut BitWriter, index: u8, line: &Line) {
    for flag in [line.flags.pabx, line.flags.encryption, line.flags.emergency] {
        bits.flag(flag);
    }
    bits.bits(line.flags.priority.into(), 2);
    bits.bits(0, 7);
    bits.bits(index.into(), 4);
    write_digits(bits, &line.digits);
    write_text(bits, &line.text);
}

/// The group bit before the current one, and always an address.
fn write_key(bits: &mut BitWriter, key: &EmergencyKey) {
    for flag in [key.group, key.address.is_none(), key.voice, key.status, key.siren] {
        bits.flag(flag);
    }
    bits.bits(0, 3);
    bits.bits(key.address.unwrap_or(0), 24);
}

fn write_hash(bits: &mut BitWriter, hash: &Hash) {
    bits.bytes(&[report_type(0xFF), u8::from(*hash != Hash::Nothing)]);
    if *hash != Hash::Nothing {
        bits.bytes(&[hash.code()]);
        bits.bytes(hash.value());
    }
}

/// Texts are under 0111, whatever the set was configured in.
fn write_text(bits: &mut BitWriter, text: &[u16]) {
    Coding::Unicode.write_text(bits, text).expect("no unit that is kept is 0");
}
