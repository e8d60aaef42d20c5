//! Areas of the desk emulator by what they keep: a message and a row, by the archive and by the plain engine of the reference.

use crate::messages::matching_query;
use crate::sides::Call;
use otap::{Desk, Table, AREA_SIZE, DESK_SCRATCH_ROOM, REPLY_ROOM};
use otap_reference::reference::message::request;
use otap_reference::reference::plain::{plain_row_part, plain_take};
use otap_reference::reference::settings::{Operation, Setting, TextEntry};
use std::hint::black_box;

/// Bytes that say how many behind them are used.
const USED: usize = 4;

/// An area, and a query, which it answers and does not keep; it and the copy of the area for each call are the same on both sides.
#[derive(Clone)]
pub struct Kept {
    area: Vec<u8>,
    pub query: Vec<u8>,
}

impl Kept {
    /// The number of a message, by the face.
    pub fn rattle_takes(&self) -> u8 {
        let mut area = self.area.clone();
        Desk::lent(black_box(&mut area)).take(black_box(&self.query), &mut [0; REPLY_ROOM]).number()
    }

    /// The same, by the reference.
    pub fn plain_takes(&self) -> u8 {
        let mut area = self.area.clone();
        plain_take(black_box(&self.query), black_box(&mut area), &mut [0; REPLY_ROOM]).number
    }

    /// How many bytes the first quick text shows, by the face.
    pub fn rattle_shows(&self) -> u8 {
        let (mut area, mut scratch) = (self.area.clone(), [0; DESK_SCRATCH_ROOM]);
        let row = Desk::lent(black_box(&mut area)).row(Table::QuickTexts, 0, &mut scratch);
        row.map_or_else(|refusal| refusal.number(), |shown| shown.bytes().len() as u8)
    }

    /// The same, by the reference.
    pub fn plain_shows(&self) -> u8 {
        let (area, mut scratch) = (self.area.clone(), [0; DESK_SCRATCH_ROOM]);
        let shown = plain_row_part(2, 0, black_box(&area), &mut scratch).bytes(&scratch).len();
        if shown == 0 {
            17
        } else {
            shown as u8
        }
    }
}

/// An area with so many requests, each of 63 quick texts of 23 units; ten fill it. Its bytes are written here, for taking them goes with their square.
pub fn keeping(requests: usize) -> Kept {
    let entries = (0..63).map(|key| TextEntry { key, text: vec![0x8B66; 23] }).collect();
    let message = request(&[Setting::QuickTexts { operation: Operation::Add, entries }.write()]);
    let record = [&(message.len() as u16).to_be_bytes()[..], &message].concat();
    let kept = record.repeat(requests);
    let mut area = vec![0; AREA_SIZE];
    area[..USED].copy_from_slice(&(kept.len() as u32).to_be_bytes());
    area[USED..][..kept.len()].copy_from_slice(&kept);
    Kept { area, query: matching_query() }
}

/// A name, a call and a number: a query, which matches no hash, and the first quick text, of an empty area, of one that is half full and of a full one.
pub fn calls() -> Vec<(String, Call, u8)> {
    let mut calls = Vec::new();
    for (name, requests, shown) in [("empty", 0, 17), ("half", 5, 46), ("full", 10, 46)] {
        calls.push((format!("plain-take-{name}"), Call::PlainTake(keeping(requests)), 5));
        calls.push((format!("plain-row-{name}"), Call::PlainRow(keeping(requests)), shown));
    }
    calls
}
