//! The ten export parts, as requests with true lengths and no last item.

use super::message::request;
use super::numbers::{BUFFER_SHORT, NOT_A_STORE, NO_SUCH_PART, TAKEN};
use super::settings::{
    ContactEntry, GroupFlags, IndividualFlags, LineEntry, LineFlags, Operation, Setting, TextEntry,
    BACKGROUND,
};
use super::tables::{Set, Tables, FIRST_STATUS};
use super::texts::Text;

pub const PARTS: u8 = 10;

/// Most entries a quick-text setting's 6-bit Count can say.
const MOST_QUICK: usize = 63;

#[derive(Clone, Copy, Debug, PartialEq, Eq)]
pub struct Exported {
    pub number: u8,
    pub length: usize,
}

/// Writes one part at the start of the buffer; bytes past its length stay.
pub fn export(part: u8, is_store: bool, set: &Set, buffer: &mut [u8]) -> Exported {
    let refused = |number| Exported { number, length: 0 };
    if buffer.len() < set.limits.message {
        return refused(BUFFER_SHORT);
    }
    if !is_store {
        return refused(NOT_A_STORE);
    }
    match part_bytes(part, set) {
        None => refused(NO_SUCH_PART),
        Some(bytes) => {
            buffer[..bytes.len()].copy_from_slice(&bytes);
            Exported { number: TAKEN, length: bytes.len() }
        }
    }
}

/// The bytes of part 1 to 10.
pub fn part_bytes(part: u8, set: &Set) -> Option<Vec<u8>> {
    let tables = &set.tables;
    let settings = match part {
        1 => lines(tables),
        2 => vec![
            Setting::Emergency(tables.emergency),
            Setting::Home(tables.home),
            Setting::System(tables.system),
        ],
        3 => quick_texts(tables),
        4 => vec![Setting::Channels {
            operation: Operation::Replace,
            channels: tables.channels.clone(),
        }],
        5 => vec![status_texts(tables)],
        6 => slots(&tables.groups, |index, slot| Setting::Group { index, slot }),
        7 => slots(&tables.individuals, |index, slot| Setting::Individual { index, slot }),
        8 => group_contacts(tables),
        9 => individual_contacts(tables),
        10 => slots(&tables.line_slots, |index, slot| Setting::LineSlot { index, slot }),
        _ => return None,
    };
    let written: Vec<_> = settings.iter().map(Setting::write).collect();
    Some(request(&written))
}

fn lines(tables: &Tables) -> Vec<Setting> {
    let clear = Setting::Lines {
        operation: Operation::Replace,
        flags: LineFlags::default(),
        entries: Vec::new(),
    };
    // One add each, because the flags stand once per setting.
    let adds = tables.lines.iter().map(|line| Setting::Lines {
        operation: Operation::Add,
        flags: line.flags,
        entries: vec![LineEntry { digits: line.digits.clone(), text: line.text.clone() }],
    });
    std::iter::once(clear).chain(adds).collect()
}

fn group_contacts(tables: &Tables) -> Vec<Setting> {
    let setting = |operation, flags, entries| Setting::GroupContacts { operation, flags, entries };
    // Attribute 00 would be refused; 01 is the least that is taken.
    let flags = GroupFlags { attribute: BACKGROUND, ..GroupFlags::default() };
    let clear = setting(Operation::Replace, flags, Vec::new());
    let adds = tables.group_contacts.iter().map(|contact| {
        let entry = ContactEntry { address: contact.address, text: contact.text.clone() };
        setting(Operation::Add, contact.flags(), vec![entry])
    });
    std::iter::once(clear).chain(adds).collect()
}

fn individual_contacts(tables: &Tables) -> Vec<Setting> {
    let setting =
        |operation, flags, entries| Setting::IndividualContacts { operation, flags, entries };
    let clear = setting(Operation::Replace, IndividualFlags::default(), Vec::new());
    let adds = tables.individual_contacts.iter().map(|contact| {
        let entry = ContactEntry { address: contact.address, text: contact.text.clone() };
        setting(Operation::Add, contact.flags(), vec![entry])
    });
    std::iter::once(clear).chain(adds).collect()
}

fn quick_texts(tables: &Tables) -> Vec<Setting> {
    let mut entries = held(&tables.quick_texts, 0);
    let beyond = entries.split_off(entries.len().min(MOST_QUICK));
    let mut settings = vec![Setting::QuickTexts { operation: Operation::Replace, entries }];
    if !beyond.is_empty() {
        settings.push(Setting::QuickTexts { operation: Operation::Add, entries: beyond });
    }
    settings
}

fn status_texts(tables: &Tables) -> Setting {
    let entries = held(&tables.status_texts, FIRST_STATUS);
    Setting::StatusTexts { operation: Operation::Replace, entries }
}

/// The texts held, by rising key.
pub(super) fn held(texts: &[Option<Text>], first: u8) -> Vec<TextEntry> {
    (first..)
        .zip(texts)
        .filter_map(|(key, text)| text.clone().map(|text| TextEntry { key, text }))
        .collect()
}

fn slots<T: Clone>(slots: &[Option<T>], setting: fn(u8, Option<T>) -> Setting) -> Vec<Setting> {
    (0..).zip(slots).map(|(index, slot)| setting(index, slot.clone())).collect()
}
