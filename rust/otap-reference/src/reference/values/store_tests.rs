//! The values of many sets, against what is cut from the bytes of their stores as docs/STORE.md has them.

use super::*;
use crate::inputs::values::Value;
use crate::inputs::Inputs;
use crate::layout;
use crate::reference::by_hand::shown;
use crate::reference::commit::{judge_and_commit, REPLY_ROOM};
use crate::reference::limits::HANDHELD;
use crate::reference::packing::*;
use crate::reference::screen::{Row, Shown};
use crate::reference::settings::BACKGROUND;

/// The reference's answer, packed, and the buffer for digits after it.
fn answered(value: Value, is_store: bool, set: &Set) -> (u64, Vec<u8>) {
    let mut buffer = Vec::new();
    let answer = match value {
        Value::Entry { table, index } => packed_entry(entry(table, index, is_store, set)),
        Value::EntryDigits { table, index, room } => {
            buffer.resize(room, 0xEE);
            packed_digits(entry_digits(table, index, is_store, set, &mut buffer))
        }
        Value::Channel { position } => packed_channel(channel(position, is_store, set)),
        Value::EmergencyKey => packed_emergency_key(emergency_key(is_store, set)),
        Value::HomeNumbers => packed_home_numbers(home_numbers(is_store, set)),
        Value::SystemCode => packed_system_code(system_code(is_store, set)),
    };
    (answer, buffer)
}

/// High byte first.
fn number(bytes: &[u8]) -> u64 {
    bytes.iter().fold(0, |number, &byte| number << 8 | u64::from(byte))
}

/// So many bits of a byte from one on.
fn bits(byte: u8, from: u32, width: u32) -> u64 {
    u64::from(byte) >> from & ((1 << width) - 1)
}

/// The slot of a row, if it has one that is not all 0.
fn slot(bytes: &[u8], table: u32, index: u32) -> Option<&[u8]> {
    let (at, width, places) = match table {
        1 => (1_550, 21, 32),
        4 => (278, 5, 16),
        5 => (358, 5, 16),
        6 => (776, 5, 64),
        7 => (1_098, 5, 64),
        8 => (438, 21, 16),
        _ => return None,
    };
    let slot = (index < places).then(|| &bytes[at + index as usize * width..][..width])?;
    slot.iter().any(|&byte| byte != 0).then_some(slot)
}

fn cut_entry(bytes: &[u8], table: u32, index: u32) -> u64 {
    let Some(slot) = slot(bytes, table, index) else { return 17 };
    let flags = slot[0];
    let shared = bits(flags, 2, 1) << 34 | bits(flags, 0, 2) << 35;
    match table {
        1 | 8 => shared | bits(flags, 3, 1) << 33 | u64::from(slot[1]) << 32,
        5 | 7 => shared | bits(flags, 3, 1) << 33 | number(&slot[1..4]) << 8,
        _ => {
            let group = bits(flags, 4, 1) << 33 | bits(flags, 6, 2) << 37;
            let more = bits(flags, 5, 1) << 39 | bits(flags, 3, 1) << 40;
            shared | group | more | number(&slot[1..4]) << 8
        }
    }
}

fn cut_digits(bytes: &[u8], table: u32, index: u32, room: usize) -> (u64, Vec<u8>) {
    let mut buffer = vec![0xEE; room];
    if room < 18 {
        return (15, buffer);
    }
    let Some(slot) = slot(bytes, table, index).filter(|_| table == 1 || table == 8) else {
        return (17, buffer);
    };
    let digits: Vec<u8> = slot[2..20].iter().filter_map(|kept| kept.checked_sub(1)).collect();
    buffer.splice(..digits.len(), digits.iter().copied());
    (number(&[digits.len() as u8, 0]), buffer)
}

/// What the bytes of a store say.
fn cut(value: Value, bytes: &[u8]) -> (u64, Vec<u8>) {
    let answer = match value {
        Value::Entry { table, index } => cut_entry(bytes, table, index),
        Value::EntryDigits { table, index, room } => return cut_digits(bytes, table, index, room),
        Value::Channel { position } if u64::from(position) < number(&bytes[1_418..1_420]) => {
            number(&bytes[1_420 + 2 * position as usize..][..2]) << 8
        }
        Value::Channel { .. } => 17,
        Value::EmergencyKey => {
            let key = &bytes[11..15];
            let [current, group, voice, status, siren] =
                [4, 3, 2, 1, 0].map(|from| bits(key[0], from, 1));
            let flags = current | group << 1 | voice << 2 | status << 3 | siren << 4;
            number(&key[1..]) << 8 | flags << 32
        }
        Value::HomeNumbers => number(&bytes[15..17]) << 8 | number(&bytes[17..19]) << 17,
        Value::SystemCode => {
            let last = bytes[21];
            let code = bits(last, 3, 5) << 20 | bits(last, 1, 2) << 24 | bits(last, 0, 1) << 26;
            number(&bytes[19..21]) << 8 | code
        }
    };
    (answer, Vec::new())
}

/// Bytes that are no store: the buffer alone comes before them, and stays.
fn unanswered(value: Value) -> (u64, Vec<u8>) {
    match value {
        Value::EntryDigits { room, .. } if room < 18 => (15, vec![0xEE; room]),
        Value::EntryDigits { room, .. } => (11, vec![0xEE; room]),
        _ => (11, Vec::new()),
    }
}

/// Which of the six, which table if it has one, and the number.
fn seen(value: Value, answer: u64) -> (usize, u32, u64) {
    let (call, table) = match value {
        Value::Entry { table, .. } => (0, table),
        Value::EntryDigits { table, .. } => (1, table),
        Value::Channel { .. } => (2, 0),
        Value::EmergencyKey => (3, 0),
        Value::HomeNumbers => (4, 0),
        Value::SystemCode => (5, 0),
    };
    (call, table, answer & 0xFF)
}

/// Every call with every number that it can answer, and every table.
#[test]
fn values_of_many_sets() {
    let mut met = std::collections::BTreeMap::new();
    for seed in 0..40 {
        let mut inputs = Inputs::new(seed, HANDHELD);
        let mut set = Set::fresh(HANDHELD);
        for _ in 0..40 {
            judge_and_commit(&inputs.message(), &mut set, &mut [0; REPLY_ROOM]);
            let bytes = layout::bytes(&set);
            for _ in 0..20 {
                let value = inputs.value();
                let said = answered(value, true, &set);
                assert_eq!(said, cut(value, &bytes), "{value:?}");
                assert_eq!(answered(value, false, &set), unanswered(value), "{value:?}");
                *met.entry(seen(value, said.0)).or_insert(0) += 1;
            }
        }
    }
    println!("{met:?}");
    for table in [1, 4, 5, 6, 7, 8] {
        assert!(met[&(0, table, 0)] > 500 && met[&(0, table, 17)] > 100, "{table}");
        assert!(met[&(1, table, 17)] > 20, "{table}");
    }
    assert!(met[&(1, 1, 0)] > 500 && met[&(1, 8, 0)] > 500 && met[&(1, 1, 15)] > 50);
    assert!(met[&(2, 0, 0)] > 500 && met[&(2, 0, 17)] > 100);
    assert!([3, 4, 5].iter().all(|&call| met[&(call, 0, 0)] > 500));
}

/// The row of a table at a place.
type RowAt = fn(usize) -> Row;

const ROWS: [(u32, RowAt); 6] = [
    (1, Row::Line),
    (4, Row::Group),
    (5, Row::Individual),
    (6, Row::GroupContact),
    (7, Row::IndividualContact),
    (8, Row::LineSlot),
];

/// A row is shown exactly where something stands behind it that is no background group.
#[test]
fn rows_and_entries_agree() {
    let (mut rows, mut hidden) = (0, 0);
    for seed in 0..20 {
        let mut inputs = Inputs::new(seed, HANDHELD);
        let mut set = Set::fresh(HANDHELD);
        for _ in 0..40 {
            judge_and_commit(&inputs.message(), &mut set, &mut [0; REPLY_ROOM]);
        }
        for (table, row) in ROWS {
            for index in 0..66 {
                let there = entry(table, index, true, &set).ok();
                let heard = there.is_some_and(is_background);
                let is_shown = shown(&set, row(index as usize)) != Shown::Nothing;
                assert_eq!(is_shown, there.is_some() && !heard, "{table} {index}");
                rows += usize::from(is_shown);
                hidden += usize::from(heard);
            }
        }
    }
    println!("{rows} rows, {hidden} background groups");
    assert!(rows > 500 && hidden > 20);
}

fn is_background(entry: Entry) -> bool {
    matches!(entry, Entry::Group { flags, .. } if flags.attribute == BACKGROUND)
}
