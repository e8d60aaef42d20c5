//! The bytes of a store as docs/STORE.md describes them: an independent reading, as the reference is of document 01.

pub mod fast;
mod regions;

pub use regions::{
    text_at, Regions, Slots, CHANNEL, COUNT, LINE_HEAD, LINE_KEY, MEMBER_HEAD, MEMBER_KEY,
};

use crate::reference::callers::order;
use crate::reference::limits::{Limits, Texts};
use crate::reference::message::Hash;
use crate::reference::settings::{EmergencyKey, GroupSlot, IndividualSlot, SystemCode};
use crate::reference::tables::{Line, Set};
use crate::reference::texts::{QUICK_TEXT, SHORT_TEXT};
use regions::FIXED;
use std::ops::Range;

#[cfg(test)]
mod order_tests;
#[cfg(test)]
mod shared_tests;
#[cfg(test)]
mod tests;

/// The only bytes that keep this set.
pub fn bytes(set: &Set) -> Vec<u8> {
    let (tables, limits) = (&set.tables, set.limits);
    let regions = limits.regions();
    let text = |text: &[u16]| in_slot(limits.texts, text);
    let group = |slot: &GroupSlot| [group(slot), text(&slot.text)].concat();
    let individual = |slot: &IndividualSlot| [individual(slot), text(&slot.text)].concat();
    let line = |slot: &Line| [line(slot), text(&slot.text)].concat();
    let mut out = hash(&set.hash);
    out.extend(key(&tables.emergency));
    out.extend(tables.home.nzi.to_be_bytes());
    out.extend(tables.home.np.to_be_bytes());
    out.extend(system(&tables.system));
    slots(&mut out, regions.quick_texts, &tables.quick_texts, |held| text(held));
    slots(&mut out, regions.status_texts, &tables.status_texts, |held| {
        [vec![1], text(held)].concat()
    });
    slots(&mut out, regions.groups, &tables.groups, group);
    slots(&mut out, regions.individuals, &tables.individuals, individual);
    slots(&mut out, regions.line_slots, &tables.line_slots, line);
    list(&mut out, regions.group_contacts, &tables.group_contacts, group);
    list(&mut out, regions.individual_contacts, &tables.individual_contacts, individual);
    list(&mut out, regions.channels, &tables.channels, |channel| channel.to_be_bytes().to_vec());
    list(&mut out, regions.lines, &tables.lines, line);
    out.extend(order(&tables.lines).into_iter().map(named));
    out.resize(regions.area.start, 0);
    if let Texts::Shared(_) = limits.texts {
        tables.texts().for_each(|held| out.extend(units(held)));
    }
    out.resize(limits.store, 0);
    out
}

/// What a slot has of its text: the units, or, where these stand in the area, how many they are.
fn in_slot(texts: Texts, text: &[u16]) -> Vec<u8> {
    match texts {
        Texts::Placed => units(text),
        Texts::Shared(_) => vec![u8::try_from(text.len()).expect("a text has at most 23 units")],
    }
}

/// A table by index or code: every slot, an empty one all 0.
fn slots<T>(out: &mut Vec<u8>, slots: Slots, table: &[Option<T>], slot: impl Fn(&T) -> Vec<u8>) {
    for entry in table {
        push(out, slots.width, entry.as_ref().map_or(Vec::new(), &slot));
    }
}

/// A table by position: its count, then the slots in use, then empty ones.
fn list<T>(out: &mut Vec<u8>, slots: Slots, table: &[T], slot: impl Fn(&T) -> Vec<u8>) {
    out.extend(count(table.len()));
    table.iter().for_each(|entry| push(out, slots.width, slot(entry)));
    out.resize(slots.end(), 0);
}

fn count(entries: usize) -> [u8; COUNT] {
    u16::try_from(entries).expect("the tables have room for fewer").to_be_bytes()
}

/// A position plus one, since 0 names none.
fn named(position: usize) -> u8 {
    u8::try_from(position + 1).expect("the tables have room for fewer")
}

fn push(out: &mut Vec<u8>, size: usize, mut slot: Vec<u8>) {
    slot.resize(size, 0);
    out.extend(slot);
}

fn units(text: &[u16]) -> Vec<u8> {
    text.iter().flat_map(|unit| unit.to_be_bytes()).collect()
}

fn hash(hash: &Hash) -> Vec<u8> {
    let mut out = vec![hash.code()];
    out.extend(hash.value());
    out.resize(11, 0);
    out
}

fn address(address: u32) -> [u8; 3] {
    let [_, high, middle, low] = address.to_be_bytes();
    [high, middle, low]
}

/// A byte with each value shifted to its place.
fn flags(values: &[(u8, u32)]) -> u8 {
    values.iter().fold(0, |flags, (value, place)| flags | value << place)
}

fn key(key: &EmergencyKey) -> Vec<u8> {
    let current = key.address.is_none();
    let said = [(current, 4), (key.group, 3), (key.voice, 2), (key.status, 1), (key.siren, 0)];
    let mut out = vec![flags(&said.map(|(flag, place)| (u8::from(flag), place)))];
    out.extend(address(key.address.unwrap_or(0)));
    out
}

fn system(code: &SystemCode) -> [u8; 3] {
    let [high, low] = code.lai.to_be_bytes();
    [high, low, flags(&[(code.la, 3), (code.roaming, 1), (code.par.into(), 0)])]
}

/// The heads of slots: what stands before the text.
fn group(slot: &GroupSlot) -> Vec<u8> {
    let said = flags(&[
        (slot.attribute, 6),
        (slot.broadcast.into(), 5),
        (slot.encryption.into(), 4),
        (slot.ovcm.into(), 3),
        (slot.emergency.into(), 2),
        (slot.priority, 0),
    ]);
    [&[said][..], &address(slot.address.0)].concat()
}

fn individual(slot: &IndividualSlot) -> Vec<u8> {
    let said =
        flags(&[(slot.encryption.into(), 3), (slot.emergency.into(), 2), (slot.priority, 0)]);
    [&[said][..], &address(slot.address.0)].concat()
}

fn line(line: &Line) -> Vec<u8> {
    let held = &line.flags;
    let said =
        flags(&[(held.encryption.into(), 3), (held.emergency.into(), 2), (held.priority, 0)]);
    let mut out = vec![said, held.pabx.into()];
    out.extend(line.digits.iter().map(|digit| digit + 1));
    out.resize(LINE_HEAD, 0);
    out
}

/// Whether bytes are those of some set of this kind.
pub fn is_store(bytes: &[u8], limits: Limits) -> bool {
    let (regions, texts) = (limits.regions(), limits.texts);
    let is_group = |slot: &[u8]| is_group(slot, texts);
    let is_individual = |slot: &[u8]| is_individual(slot, texts);
    let is_line = |slot: &[u8]| is_line(slot, texts);
    let is_quick = |slot: &[u8]| is_text(slot, texts, QUICK_TEXT);
    let is_status = |slot: &[u8]| slot[0] == 1 && is_text(&slot[1..], texts, SHORT_TEXT);
    bytes.len() == limits.store
        && are_fixed(&bytes[..FIXED])
        && all(bytes, regions.quick_texts, is_quick)
        && all(bytes, regions.status_texts, is_status)
        && all(bytes, regions.groups, is_group)
        && all(bytes, regions.individuals, is_individual)
        && all(bytes, regions.line_slots, is_line)
        && keyed(bytes, regions.group_contacts, is_group, MEMBER_KEY)
        && keyed(bytes, regions.individual_contacts, is_individual, MEMBER_KEY)
        && counted(bytes, regions.channels, is_channel)
        && keyed(bytes, regions.lines, is_line, LINE_KEY)
        && is_order(bytes, &regions)
        && (texts == Texts::Placed || is_area(bytes, &regions))
        && is_empty(&bytes[regions.spare()..])
}

fn are_fixed(bytes: &[u8]) -> bool {
    is_hash(&bytes[..11])
        && is_key(&bytes[11..15])
        && is_home(&bytes[15..19])
        && is_system(&bytes[19..22])
}

/// A list in which no key stands twice: of contacts the address, of lines IDtype and digits.
fn keyed(bytes: &[u8], slots: Slots, is_entry: impl Fn(&[u8]) -> bool, key: Range<usize>) -> bool {
    counted(bytes, slots, is_entry) && keys_differ(slots.of(bytes), slots.width, key)
}

/// The units that the slots count, none of them 0, and then zeros only.
fn is_area(bytes: &[u8], regions: &Regions) -> bool {
    let area = &bytes[regions.area.clone()];
    let used = 2 * regions.units(bytes, &regions.with_texts());
    used <= area.len()
        && area[..used].chunks_exact(2).all(|unit| unit != [0, 0])
        && is_empty(&area[used..])
}

/// As many names of lines as are counted, the key of each before the next one's, so that none is named twice; then zeros only.
fn is_order(bytes: &[u8], regions: &Regions) -> bool {
    let lines = regions.lines;
    let count = usize::from(lines.count(bytes));
    let slots: Vec<&[u8]> = lines.of(bytes).chunks_exact(lines.width).take(count).collect();
    let (names, rest) = bytes[regions.order.clone()].split_at(count);
    // Digits are kept as one more, so that the end of a number, 0, comes before any digit.
    let key = |&name: &u8| Some(&slots.get(usize::from(name).checked_sub(1)?)?[LINE_KEY]);
    let keys: Option<Vec<&[u8]>> = names.iter().map(key).collect();
    keys.is_some_and(|keys| keys.is_sorted_by(|one, next| one < next)) && is_empty(rest)
}

fn is_empty(bytes: &[u8]) -> bool {
    bytes.iter().all(|&byte| byte == 0)
}

/// Every slot is empty or an entry.
fn all(bytes: &[u8], slots: Slots, is_entry: impl Fn(&[u8]) -> bool) -> bool {
    slots.of(bytes).chunks_exact(slots.width).all(|slot| is_empty(slot) || is_entry(slot))
}

/// A count, as many entries, and then empty slots only. No entry is an empty slot, so that one count is right.
fn counted(bytes: &[u8], slots: Slots, is_entry: impl Fn(&[u8]) -> bool) -> bool {
    let used = usize::from(slots.count(bytes)) * slots.width;
    let slots_bytes = slots.of(bytes);
    used <= slots_bytes.len()
        && slots_bytes[..used].chunks_exact(slots.width).all(is_entry)
        && is_empty(&slots_bytes[used..])
}

fn pair(bytes: &[u8]) -> u16 {
    u16::from_be_bytes([bytes[0], bytes[1]])
}

/// What a slot has of a text of at most so many units: these with zeros behind them, or their number. No slot but an empty one is all 0, so that a quick
/// text has a unit.
fn is_text(bytes: &[u8], texts: Texts, most: usize) -> bool {
    match texts {
        Texts::Placed => {
            let length = bytes.chunks_exact(2).take_while(|unit| *unit != [0, 0]).count();
            is_empty(&bytes[2 * length..])
        }
        Texts::Shared(_) => usize::from(bytes[0]) <= most,
    }
}

fn is_address(bytes: &[u8]) -> bool {
    bytes[0] >= 0x10 && pair(&bytes[1..]) & 0x7FFF != 0
}

fn is_hash(bytes: &[u8]) -> bool {
    match bytes[0] {
        0 => is_empty(bytes),
        1 => is_empty(&bytes[5..]),
        code => code == 2,
    }
}

fn is_key(bytes: &[u8]) -> bool {
    match bytes[0] {
        0..16 => is_address(&bytes[1..]),
        16..32 => is_empty(&bytes[1..]),
        _ => false,
    }
}

fn is_home(bytes: &[u8]) -> bool {
    pair(bytes) < 512 && pair(&bytes[2..]) <= 806
}

fn is_system(bytes: &[u8]) -> bool {
    pair(bytes) < 4_096 && bytes[2] >> 3 <= 8 && bytes[2] >> 1 & 3 != 3
}

/// The attribute, in the two highest bits, is not 00.
fn is_group(slot: &[u8], texts: Texts) -> bool {
    slot[0] >= 64 && is_member(slot, texts)
}

fn is_individual(slot: &[u8], texts: Texts) -> bool {
    slot[0] < 16 && is_member(slot, texts)
}

fn is_member(slot: &[u8], texts: Texts) -> bool {
    let (head, text) = slot.split_at(MEMBER_HEAD);
    is_address(&head[MEMBER_KEY]) && is_text(text, texts, SHORT_TEXT)
}

fn is_channel(slot: &[u8]) -> bool {
    (241..=640).contains(&pair(slot))
}

fn is_line(slot: &[u8], texts: Texts) -> bool {
    let (head, text) = slot.split_at(LINE_HEAD);
    let digits = &head[2..];
    let length = digits.iter().take_while(|&&digit| (1..=10).contains(&digit)).count();
    let is_number = length > 0 && is_empty(&digits[length..]);
    head[0] < 16 && head[1] < 2 && is_number && is_text(text, texts, SHORT_TEXT)
}

/// No two entries have one key, which of a line is IDtype and digits, and of a contact the address.
fn keys_differ(bytes: &[u8], size: usize, key: Range<usize>) -> bool {
    let entries = bytes.chunks_exact(size).filter(|slot| !is_empty(slot));
    let keys: Vec<&[u8]> = entries.map(|slot| &slot[key.clone()]).collect();
    (1..keys.len()).all(|place| !keys[..place].contains(&keys[place]))
}
