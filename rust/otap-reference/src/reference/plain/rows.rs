//! The rows of the plain engine: what the kept requests, read from the first, sent to a row's table.

use super::sent::{sent_by, Caption, Entry, Key, Sent, TextPlace, QUICK};
use super::{kept, replayed};
use crate::reference::numbers::{BUFFER_SHORT, NOT_A_STORE, NO_SUCH_ROW, TAKEN};
use crate::reference::settings::Operation;
use crate::reference::texts::Coding;
use crate::reference::values::{GROUP_CONTACTS, INDIVIDUAL_CONTACTS, LINES};

/// The least scratch: any text fits, and any number.
pub const PLAIN_SCRATCH_ROOM: usize = 64;

/// The part given to the screen, of units of 16 bits, high byte first.
#[derive(Clone, Copy, Debug, PartialEq, Eq)]
pub enum PlainShown {
    /// A refusal's empty part.
    Nothing,
    /// So many bytes at the start of the scratch, where the text or the number was written; none for an empty status text.
    Scratch(usize),
}

impl PlainShown {
    /// The bytes of the part.
    pub fn bytes(self, scratch: &[u8]) -> &[u8] {
        match self {
            PlainShown::Nothing => &[],
            PlainShown::Scratch(length) => &scratch[..length],
        }
    }
}

/// The first call: 0, 15, 11 or 17. Tables have their numbers for C.
pub fn plain_row_number(table: u32, place: u32, area: &[u8], scratch: &[u8]) -> u8 {
    judged(table, place, area, scratch).err().unwrap_or(TAKEN)
}

/// The second call: judges as the first, and writes the units of the text or of the number at the start of the scratch.
pub fn plain_row_part(table: u32, place: u32, area: &[u8], scratch: &mut [u8]) -> PlainShown {
    match judged(table, place, area, scratch) {
        Err(_) => PlainShown::Nothing,
        Ok(Caption::Number(units)) => written(scratch, &units),
        Ok(Caption::Text(text)) => written(scratch, &units_at(text, area)),
    }
}

/// The units of a text, which is kept as it was received.
fn units_at(text: TextPlace, area: &[u8]) -> Vec<u16> {
    let kept = &area[text.at..];
    match text.coding {
        Coding::Eight => kept[..text.units].iter().map(|&byte| byte.into()).collect(),
        Coding::Unicode => {
            let pairs = kept[..2 * text.units].chunks_exact(2);
            pairs.map(|pair| u16::from_be_bytes([pair[0], pair[1]])).collect()
        }
    }
}

fn written(scratch: &mut [u8], units: &[u16]) -> PlainShown {
    for (place, unit) in scratch.chunks_exact_mut(2).zip(units) {
        place.copy_from_slice(&unit.to_be_bytes());
    }
    PlainShown::Scratch(2 * units.len())
}

fn judged(table: u32, place: u32, area: &[u8], scratch: &[u8]) -> Result<Caption, u8> {
    if scratch.len() < PLAIN_SCRATCH_ROOM {
        return Err(BUFFER_SHORT);
    }
    if replayed(area).is_none() {
        return Err(NOT_A_STORE);
    }
    caption(table, place, area).ok_or(NO_SUCH_ROW)
}

/// What a row of an area shows; nothing where there is no such row.
fn caption(table: u32, place: u32, area: &[u8]) -> Option<Caption> {
    let mut entries = Vec::new();
    for request in kept(area)? {
        for sent in sent_by(request, area) {
            if sent.table == table {
                follow(&mut entries, sent);
            }
        }
    }
    let by_position = matches!(table, LINES | GROUP_CONTACTS | INDIVIDUAL_CONTACTS);
    let mut named = entries.into_iter().enumerate().filter(|(position, entry)| {
        if by_position {
            *position == place as usize
        } else {
            entry.key == Key::Place(place)
        }
    });
    named.next()?.1.caption
}

/// A new key comes last and a known one is overwritten in its place, but a quick text stays; a delete closes the gap.
fn follow(entries: &mut Vec<Entry>, sent: Sent) {
    if sent.operation == Operation::Replace {
        entries.clear();
    }
    for entry in sent.entries {
        let known = entries.iter().position(|kept| kept.key == entry.key);
        match (known, sent.operation) {
            (None, Operation::Delete) => {}
            (None, _) => entries.push(entry),
            (Some(place), Operation::Delete) => drop(entries.remove(place)),
            (Some(place), _) if sent.table != QUICK => entries[place] = entry,
            (Some(_), _) => {}
        }
    }
}
