//! Small helpers shared by the tests.
#![deny(unsafe_code)]

pub mod desk;
pub mod fitting;
pub mod joining;
pub mod pair;
pub mod raw;
pub mod reports;
pub mod sets;
pub mod soak;
pub mod texts;
pub mod updating;
pub mod values;
pub mod vectors;

use otap_reference::reference::commit::{judge_and_commit, REPLY_ROOM};
use otap_reference::reference::limits::HANDHELD;
use otap_reference::reference::message;
use otap_reference::reference::plan::{GroupAddress, IndividualAddress};
use otap_reference::reference::settings::{
    parse, ContactEntry, GroupFlags, IndividualFlags, LineEntry, LineFlags, Operation, Setting,
    TextEntry,
};
use otap_reference::reference::tables::Set;
use otap_reference::reference::texts::Coding;

pub fn bytes(hex: &str) -> Vec<u8> {
    hex.split_whitespace()
        .map(|word| u8::from_str_radix(word, 16).expect("two hex digits"))
        .collect()
}

pub fn request(settings: &[Vec<u8>]) -> Vec<u8> {
    message::request(settings)
}

/// A request with these settings in hex.
pub fn hex_request(settings: &[&str]) -> Vec<u8> {
    let settings: Vec<_> = settings.iter().map(|setting| bytes(setting)).collect();
    message::request(&settings)
}

/// Number and failed ID of a message to a fresh hand-held.
pub fn number_of(message: &[u8]) -> (u8, u8) {
    number_in(message, &mut Set::fresh(HANDHELD))
}

pub fn number_in(message: &[u8], set: &mut Set) -> (u8, u8) {
    let answer = judge_and_commit(message, set, &mut [0; REPLY_ROOM]);
    (answer.number, answer.failed)
}

/// The hand-held after a message that must be taken.
pub fn taken(message: &[u8]) -> Set {
    let mut set = Set::fresh(HANDHELD);
    assert_eq!(number_in(message, &mut set), (0, 0));
    set
}

/// PSTN lines without texts.
pub fn lines(operation: Operation, numbers: &[&[u8]]) -> Vec<u8> {
    lines_of(false, operation, numbers)
}

/// The same of an IDtype, PABX if so said.
pub fn lines_of(pabx: bool, operation: Operation, numbers: &[&[u8]]) -> Vec<u8> {
    let entry = |digits: &&[u8]| LineEntry { digits: digits.to_vec(), text: Vec::new() };
    let flags = LineFlags { pabx, ..LineFlags::default() };
    Setting::Lines { operation, flags, entries: numbers.iter().map(entry).collect() }.write()
}

pub fn lines_add(keys: &[&[u8]]) -> Vec<u8> {
    lines(Operation::Add, keys)
}

/// Group contacts of an attribute, each an address and a name.
pub fn group_contacts(operation: Operation, attribute: u8, contacts: &[(u32, &str)]) -> Vec<u8> {
    let flags = GroupFlags { attribute, ..GroupFlags::default() };
    let entries = contact_entries(contacts, GroupAddress);
    Setting::GroupContacts { operation, flags, entries }.write()
}

pub fn individual_contacts(operation: Operation, contacts: &[(u32, &str)]) -> Vec<u8> {
    let entries = contact_entries(contacts, IndividualAddress);
    Setting::IndividualContacts { operation, flags: IndividualFlags::default(), entries }.write()
}

fn contact_entries<A>(contacts: &[(u32, &str)], kind: fn(u32) -> A) -> Vec<ContactEntry<A>> {
    contacts
        .iter()
        .map(|&(address, text)| ContactEntry { address: kind(address), text: units(text) })
        .collect()
}

pub fn channels(operation: Operation, channels: &[u16]) -> Vec<u8> {
    Setting::Channels { operation, channels: channels.to_vec() }.write()
}

pub fn quick(operation: Operation, entries: &[(u8, &str)]) -> Vec<u8> {
    Setting::QuickTexts { operation, entries: text_entries(entries) }.write()
}

pub fn status(operation: Operation, entries: &[(u8, &str)]) -> Vec<u8> {
    Setting::StatusTexts { operation, entries: text_entries(entries) }.write()
}

fn text_entries(entries: &[(u8, &str)]) -> Vec<TextEntry> {
    entries.iter().map(|&(key, text)| TextEntry { key, text: units(text) }).collect()
}

pub fn units(text: &str) -> Vec<u16> {
    text.encode_utf16().collect()
}

/// The settings that a message's bytes begin with, each with its own bytes.
pub fn settings_of(message: &[u8], coding: Coding) -> Vec<(Setting, &[u8])> {
    let mut rest = message.get(8..).unwrap_or(&[]);
    let mut settings = Vec::new();
    while let Ok((setting, length)) = parse(rest, coding, true) {
        let (bytes, behind) = rest.split_at(length);
        settings.push((setting, bytes));
        rest = behind;
    }
    settings
}

/// Their types.
pub fn types_of(message: &[u8], coding: Coding) -> Vec<u8> {
    settings_of(message, coding).iter().map(|(_, bytes)| bytes[0]).collect()
}
