//! What stands behind a row, and what the radio works by: the same values by the archive and by plain Rust.

use otap::{Kind, Refusal, Table, MOST_DIGITS};
use otap_reference::reference::tables::Set;
use otap_reference::reference::values;
use std::hint::black_box;

#[derive(Clone, Copy)]
pub enum Value {
    Entry(Table, u32),
    Digits(Table, u32),
    Channel(u32),
    Key,
}

/// The last of each list.
pub const ALL: [Value; 4] = [
    Value::Entry(Table::GroupContacts, 63),
    Value::Digits(Table::Lines, 31),
    Value::Channel(63),
    Value::Key,
];

impl Value {
    pub fn name(self) -> &'static str {
        match self {
            Value::Entry(..) => "entry",
            Value::Digits(..) => "entry-digits",
            Value::Channel(_) => "channel",
            Value::Key => "key",
        }
    }

    /// The number, by the face.
    pub fn rattle<K: Kind>(self, store: &otap::Set<K>, buffer: &mut [u8]) -> u8 {
        match black_box(self) {
            Value::Entry(table, index) => said(store.entry(table, index)),
            Value::Digits(table, index) => {
                said(store.entry_digits(table, index, &mut buffer[..MOST_DIGITS]))
            }
            Value::Channel(position) => said(store.channel(position)),
            Value::Key => said(store.emergency_key()),
        }
    }

    /// The same, by the reference.
    pub fn plain(self, set: &Set, buffer: &mut [u8]) -> u8 {
        match black_box(self) {
            Value::Entry(table, index) => told(values::entry(table.number(), index, true, set)),
            Value::Digits(table, index) => {
                let buffer = &mut buffer[..MOST_DIGITS];
                told(values::entry_digits(table.number(), index, true, set, buffer))
            }
            Value::Channel(position) => told(values::channel(position, true, set)),
            Value::Key => told(values::emergency_key(true, set)),
        }
    }
}

fn said<T>(answer: Result<T, Refusal>) -> u8 {
    told(answer.map_err(Refusal::number))
}

fn told<T>(answer: Result<T, u8>) -> u8 {
    black_box(answer).map_or_else(|number| number, |_| 0)
}
