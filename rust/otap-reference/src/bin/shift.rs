//! Writes the input of the program `shift`: the messages of one shift, as records.

use otap_reference::records::push_record;
use otap_reference::reference::message::{query, reply, request, Hash};
use otap_reference::reference::plan::{group, individual};
use otap_reference::reference::settings::{
    ContactEntry, GroupFlags, IndividualFlags, LastItem, Line, LineEntry, LineFlags, Operation,
    Setting, TextEntry, BACKGROUND,
};
use otap_reference::reference::texts::Text;
use std::io::{self, Write};

const MORNING: Hash = Hash::Crc(*b"\x20\x26\x11\x15");
const EVENING: Hash = Hash::Crc(*b"\x20\x26\x11\x16");

fn units(text: &str) -> Text {
    text.encode_utf16().collect()
}

const RESPONSE: u8 = 2;

fn group_flags(attribute: u8) -> GroupFlags {
    GroupFlags { attribute, ..GroupFlags::default() }
}

/// A response group by its dialled number, with a name that may be empty.
fn group_slot(index: u8, dialled: u32, name: &str) -> Setting {
    let address = group(dialled).expect("the number is a group's");
    Setting::Group { index, slot: Some(group_flags(RESPONSE).of(address, units(name))) }
}

fn individual_slot(index: u8, dialled: u32, name: &str) -> Setting {
    let address = individual(dialled).expect("the number is an individual's");
    let slot = IndividualFlags::default().of(address, units(name));
    Setting::Individual { index, slot: Some(slot) }
}

fn line_slot(index: u8, number: &str, name: &str) -> Setting {
    let line = Line { digits: digits(number), flags: LineFlags::default(), text: units(name) };
    Setting::LineSlot { index, slot: Some(line) }
}

fn group_contacts(operation: Operation, attribute: u8, contacts: &[(u32, &str)]) -> Setting {
    let entry = |&(dialled, name): &(u32, &str)| ContactEntry {
        address: group(dialled).expect("the number is a group's"),
        text: units(name),
    };
    Setting::GroupContacts {
        operation,
        flags: group_flags(attribute),
        entries: contacts.iter().map(entry).collect(),
    }
}

fn individual_contacts(operation: Operation, contacts: &[(u32, &str)]) -> Setting {
    let entry = |&(dialled, name): &(u32, &str)| ContactEntry {
        address: individual(dialled).expect("the number is an individual's"),
        text: units(name),
    };
    Setting::IndividualContacts {
        operation,
        flags: IndividualFlags::default(),
        entries: contacts.iter().map(entry).collect(),
    }
}

fn digits(number: &str) -> Vec<u8> {
    number.bytes().map(|digit| digit - b'0').collect()
}

fn lines(operation: Operation, contacts: &[(&str, &str)]) -> Setting {
    let entry =
        |&(number, name): &(&str, &str)| LineEntry { digits: digits(number), text: units(name) };
    Setting::Lines {
        operation,
        flags: LineFlags::default(),
        entries: contacts.iter().map(entry).collect(),
    }
}

fn texts(entries: &[(u8, &str)]) -> Vec<TextEntry> {
    entries.iter().map(|&(key, text)| TextEntry { key, text: units(text) }).collect()
}

fn status_texts(entries: &[(u8, &str)]) -> Setting {
    Setting::StatusTexts { operation: Operation::Replace, entries: texts(entries) }
}

fn quick_texts(entries: &[(u8, &str)]) -> Setting {
    Setting::QuickTexts { operation: Operation::Add, entries: texts(entries) }
}

fn taken_as(settings: &[Setting]) -> Vec<u8> {
    request(&settings.iter().map(Setting::write).collect::<Vec<_>>())
}

/// The morning's tables, with a background group between two contacts; the reply is asked for.
fn morning() -> Vec<u8> {
    taken_as(&[
        group_slot(0, 32_820_900, "巡逻一组"),
        group_slot(1, 32_820_901, "巡逻二组"),
        individual_slot(0, 32_820_200, "赵𠮷"),
        group_contacts(Operation::Replace, RESPONSE, &[(32_820_910, "交警中队")]),
        group_contacts(Operation::Add, BACKGROUND, &[(32_820_911, "后勤组")]),
        group_contacts(Operation::Add, RESPONSE, &[(32_820_912, "治安中队")]),
        individual_contacts(Operation::Replace, &[(32_820_201, "钱队长"), (32_820_202, "孙队长")]),
        line_slot(1, "110", "报警台"),
        line_slot(2, "122", "交通事故"),
        lines(Operation::Replace, &[("2345", "值班室"), ("2346", "指挥中心"), ("119", "消防队")]),
        status_texts(&[(32, "到达现场"), (33, "处理完毕"), (34, "请求支援")]),
        quick_texts(&[(0, "立即返回集合点")]),
        Setting::Last(LastItem { reboot: false, reply: true, hash: MORNING }),
    ])
}

/// The second group and a contact get other names; no reply is asked for.
fn rename() -> Vec<u8> {
    taken_as(&[
        group_slot(1, 32_820_901, "增援二组"),
        individual_contacts(Operation::Add, &[(32_820_201, "李队长")]),
    ])
}

/// Two good settings, and a status text whose code is too small.
fn faulty() -> Vec<u8> {
    taken_as(&[
        group_slot(0, 32_820_900, "巡逻三组"),
        lines(Operation::Delete, &[("2345", "")]),
        status_texts(&[(31, "返回")]),
    ])
}

/// A group, a contact, a line slot and a line go, and others without a name come; then a restart.
fn evening() -> Vec<u8> {
    taken_as(&[
        Setting::Group { index: 0, slot: None },
        group_slot(2, 32_820_902, ""),
        group_contacts(Operation::Delete, RESPONSE, &[(32_820_910, "")]),
        individual_contacts(Operation::Add, &[(32_820_203, "")]),
        Setting::LineSlot { index: 1, slot: None },
        line_slot(3, "120", ""),
        lines(Operation::Delete, &[("2346", "")]),
        Setting::Last(LastItem { reboot: true, reply: true, hash: EVENING }),
    ])
}

/// The messages in order; the last two are a query for the hash kept, and another set's reply.
fn shift() -> Vec<u8> {
    let mut out = Vec::new();
    for message in
        [morning(), rename(), faulty(), evening(), query(&EVENING), reply(0, 0, &EVENING)]
    {
        push_record(&mut out, 0, &message);
    }
    out
}

fn main() -> io::Result<()> {
    io::stdout().write_all(&shift())
}
