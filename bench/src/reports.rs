//! Queries to a full store, and messages for the office's reader: by the archives and by plain Rust.

use crate::messages::full_set;
use crate::sides::answered;
use otap::{Kind, Refusal};
use otap_reference::reference::limits::HANDHELD;
use otap_reference::reference::queries::query;
use otap_reference::reference::report_reading::read;
use otap_reference::reference::reports::{self, report};
use otap_reference::reference::tables::Set;
use std::hint::black_box;

/// Each table by what asks for it.
const TABLES: [(&str, u8); 10] = [
    ("group-contacts", 0xC8),
    ("individual-contacts", 0xC9),
    ("lines", 0xCA),
    ("emergency-key", 0xCB),
    ("quick-texts", 0xCC),
    ("home-numbers", 0xCD),
    ("channels", 0xCE),
    ("system-code", 0xCF),
    ("status-texts", 0xD0),
    ("hash", 0xFF),
];

/// A query, which message of its report is asked for, and how many it has to have.
#[derive(Clone)]
pub struct Asked {
    pub query: Vec<u8>,
    index: u32,
    total: u32,
}

impl Asked {
    /// The number, by the face.
    pub fn rattle<K: Kind>(&self, store: &otap::Set<K>, buffer: &mut [u8]) -> u8 {
        let report = store.report(black_box(&self.query), black_box(self.index), buffer);
        answered(black_box(report).map(|report| report.total).map_err(Refusal::number), self.total)
    }

    /// The same, by the reference.
    pub fn plain(&self, set: &Set, buffer: &mut [u8]) -> u8 {
        let told = report(black_box(&self.query), black_box(self.index), true, set, buffer);
        answered(black_box(told).map(|told| told.total.into()), self.total)
    }
}

fn asked(types: &[u8], index: u32, total: u32) -> Asked {
    Asked { query: query(types), index, total }
}

/// A name for each query to a vehicle: the two tables that have more in it, and status texts as often as can be asked.
pub fn queries_to_a_vehicle() -> [(&'static str, Asked); 4] {
    let longest = |index| asked(&[0xD0; 255], index, 114);
    [
        ("lines", asked(&[0xCA], 1, 1)),
        ("channels", asked(&[0xCE], 1, 2)),
        ("longest-first", longest(1)),
        ("longest-last", longest(114)),
    ]
}

/// A name for each query to a hand-held: every table by itself, which is one message; all ten, and quick texts, which are the most bytes, as often as can be asked, by
/// their first and last message.
pub fn queries() -> Vec<(String, Asked)> {
    let one = |(name, byte): (&str, u8)| (name.to_string(), asked(&[byte], 1, 1));
    let mut queries: Vec<_> = TABLES.into_iter().map(one).collect();
    let all = TABLES.map(|(_, byte)| byte);
    for (name, types, total) in [("all", &all[..], 2), ("longest", &[0xCC; 255], 125)] {
        queries.push((format!("{name}-first"), asked(types, 1, total)));
        queries.push((format!("{name}-last"), asked(types, total, total)));
    }
    queries
}

/// Messages of a full set's reports: one with the most bytes, and one with the most parameters.
pub fn messages() -> [(&'static str, Vec<u8>); 2] {
    let set = full_set(HANDHELD);
    let first = |types: &[u8]| {
        let messages = reports::messages(types, &set).expect("at most 255 messages");
        messages.into_iter().next().expect("a report has a message")
    };
    [("quick-texts", first(&[0xCC; 3])), ("channels", first(&[0xCE; 4]))]
}

/// Reads a message and every parameter of it: the number, by the face.
pub fn rattle_reads(message: &[u8]) -> u8 {
    let read = otap::report::read(black_box(message));
    read.map_or_else(Refusal::number, |read| {
        read.entries().map(black_box).for_each(|_| ());
        0
    })
}

/// The same, by the reference.
pub fn plain_reads(message: &[u8]) -> u8 {
    black_box(read(black_box(message), HANDHELD)).map_or_else(|number| number, |_| 0)
}
