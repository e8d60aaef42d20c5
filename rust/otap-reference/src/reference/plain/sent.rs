//! What a kept request sends to the tables of the screen, and where its texts stand in the area.

use crate::reference::message::{open, REQUEST_HEAD};
use crate::reference::plan::{dialled_group, dialled_individual, GroupAddress, IndividualAddress};
use crate::reference::screen::{digits_shown, number};
use crate::reference::settings::{parse, GroupFlags, Operation, Setting, TextEntry, BACKGROUND};
use crate::reference::texts::Coding;
use crate::reference::values::{
    GROUPS, GROUP_CONTACTS, INDIVIDUALS, INDIVIDUAL_CONTACTS, LINES, LINE_SLOTS,
};
use std::ops::Range;

/// The two tables of the screen that `values` has nothing of.
pub const QUICK: u32 = 2;
pub const STATUS: u32 = 3;

/// Bytes before the first entry of a setting: type, DataLength, and the fields that stand once; then those of an address, and of an index or code.
const HEAD: usize = 5;
const C8_HEAD: usize = 6;
const CC_HEAD: usize = 4;
const ADDRESS: usize = 3;
const KEY: usize = 1;

/// Where a text stands in the area, how many units it has before its end, and what these are written in.
#[derive(Clone, Copy)]
pub struct TextPlace {
    pub at: usize,
    pub units: usize,
    pub coding: Coding,
}

/// What a row shows.
pub enum Caption {
    Text(TextPlace),
    Number(Vec<u16>),
}

/// What tells the entries of a table apart.
#[derive(PartialEq)]
pub enum Key {
    /// An index or a code.
    Place(u32),
    Group(GroupAddress),
    Individual(IndividualAddress),
    /// IDtype, true for PABX, and digits.
    Line(bool, Vec<u8>),
}

/// An entry as it was sent; a background group shows nothing.
pub struct Entry {
    pub key: Key,
    pub caption: Option<Caption>,
}

/// What one setting does to one of the tables.
pub struct Sent {
    pub table: u32,
    pub operation: Operation,
    pub entries: Vec<Entry>,
}

/// What each setting of a kept request does, in the order sent; those of other tables are left out.
pub fn sent_by(request: Range<usize>, area: &[u8]) -> Vec<Sent> {
    let opened = open(&area[request.clone()]).expect("it was taken");
    let coding = Coding::from_number(opened.coding).expect("it was taken");
    let mut sent = Vec::new();
    let mut at = request.start + REQUEST_HEAD;
    while at < request.end {
        // Whether an FF is the last was judged when the request was taken.
        let (setting, length) = parse(&area[at..request.end], coding, true).expect("it was taken");
        sent.extend(sent_in(setting, Walk { at, coding }));
        at += length;
    }
    sent
}

/// A way along the bytes of a setting, from text to text.
struct Walk {
    at: usize,
    coding: Coding,
}

impl Walk {
    fn behind(self, bytes: usize) -> Walk {
        Walk { at: self.at + bytes, ..self }
    }

    /// The text that stands behind so many bytes; the way goes on behind its end.
    fn text(&mut self, bytes: usize, text: &[u16]) -> TextPlace {
        let place = TextPlace { at: self.at + bytes, units: text.len(), coding: self.coding };
        self.at = place.at + (text.len() + 1) * self.coding.width() / 8;
        place
    }

    fn text_or(&mut self, bytes: usize, text: &[u16], number: Vec<u16>) -> Caption {
        let place = self.text(bytes, text);
        if text.is_empty() {
            Caption::Number(number)
        } else {
            Caption::Text(place)
        }
    }

    fn group(&mut self, flags: GroupFlags, address: GroupAddress, text: &[u16]) -> Option<Caption> {
        let caption = self.text_or(ADDRESS, text, number(dialled_group(address), address.0));
        (flags.attribute != BACKGROUND).then_some(caption)
    }

    fn individual(&mut self, address: IndividualAddress, text: &[u16]) -> Option<Caption> {
        Some(self.text_or(ADDRESS, text, number(dialled_individual(address), address.0)))
    }

    fn line(&mut self, digits: &[u8], text: &[u16]) -> Option<Caption> {
        // Two digits a byte, with one or two of 1111 behind them.
        Some(self.text_or(digits.len() / 2 + 1, text, digits_shown(digits)))
    }
}

fn sent_in(setting: Setting, walk: Walk) -> Option<Sent> {
    match setting {
        Setting::GroupContacts { operation, flags, entries } => {
            listed(GROUP_CONTACTS, operation, entries, walk.behind(C8_HEAD), |contact, walk| {
                let caption = walk.group(flags, contact.address, &contact.text);
                Entry { key: Key::Group(contact.address), caption }
            })
        }
        Setting::IndividualContacts { operation, entries, .. } => {
            listed(INDIVIDUAL_CONTACTS, operation, entries, walk.behind(HEAD), |contact, walk| {
                let caption = walk.individual(contact.address, &contact.text);
                Entry { key: Key::Individual(contact.address), caption }
            })
        }
        Setting::Lines { operation, flags, entries } => {
            listed(LINES, operation, entries, walk.behind(HEAD), |line, walk| {
                let caption = walk.line(&line.digits, &line.text);
                Entry { key: Key::Line(flags.pabx, line.digits), caption }
            })
        }
        Setting::QuickTexts { operation, entries } => {
            listed(QUICK, operation, entries, walk.behind(CC_HEAD), text_entry)
        }
        Setting::StatusTexts { operation, entries } => {
            listed(STATUS, operation, entries, walk.behind(HEAD), text_entry)
        }
        slot => in_slot(slot, walk.behind(HEAD)),
    }
}

/// The entries of one setting, each behind the one before it.
fn listed<T>(
    table: u32,
    operation: Operation,
    entries: Vec<T>,
    mut walk: Walk,
    mut entry: impl FnMut(T, &mut Walk) -> Entry,
) -> Option<Sent> {
    let entries = entries.into_iter().map(|sent| entry(sent, &mut walk)).collect();
    Some(Sent { table, operation, entries })
}

/// A quick or status text, which is shown also where it is empty.
fn text_entry(sent: TextEntry, walk: &mut Walk) -> Entry {
    let caption = Some(Caption::Text(walk.text(KEY, &sent.text)));
    Entry { key: Key::Place(sent.key.into()), caption }
}

/// What goes to one slot; nothing of a setting that the screen has no rows for.
fn in_slot(setting: Setting, mut walk: Walk) -> Option<Sent> {
    let (table, index, added) = match setting {
        Setting::Group { index, slot } => {
            let shown = slot.map(|group| walk.group(group.flags(), group.address, &group.text));
            (GROUPS, index, shown)
        }
        Setting::Individual { index, slot } => {
            (INDIVIDUALS, index, slot.map(|one| walk.individual(one.address, &one.text)))
        }
        Setting::LineSlot { index, slot } => {
            (LINE_SLOTS, index, slot.map(|line| walk.line(&line.digits, &line.text)))
        }
        _ => return None,
    };
    let operation = if added.is_some() { Operation::Add } else { Operation::Delete };
    let entry = Entry { key: Key::Place(index.into()), caption: added.flatten() };
    Some(Sent { table, operation, entries: vec![entry] })
}
