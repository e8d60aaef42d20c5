//! The plain engine (document 02, A12): a desk emulator that keeps the requests which were taken, one behind the other, and no tables.
//!
//! Its area is 32,768 bytes: how many of those behind the first four are used, in these four; then each request as it was received, behind its length in two
//! bytes; then zeros. Numbers are in network order. Whatever it is asked, it reads the requests from the first.

use super::commit::{commit, commit_from, Answer, REPLY_ROOM};
use super::limits::HANDHELD;
use super::message::{of_kind, REQUEST};
use super::numbers::{AREA_FULL, NOT_A_STORE, TAKEN};
use super::tables::Set;
use std::ops::Range;

#[cfg(test)]
mod agreement_tests;
#[cfg(test)]
mod area_tests;
#[cfg(test)]
mod by_hand;
#[cfg(test)]
mod row_tests;
mod rows;
mod sent;
#[cfg(test)]
mod tests;

pub use rows::{plain_row_number, plain_row_part, PlainShown, PLAIN_SCRATCH_ROOM};

/// Bytes of an area.
pub const AREA: usize = 32_768;
/// Bytes of the used length, and of the length of each request.
const USED: usize = 4;
const LENGTH: usize = 2;

/// The call: makes any bytes of the right size a fresh area; or 11, and they stay.
pub fn plain_start(area: &mut [u8]) -> u8 {
    if area.len() != AREA {
        return NOT_A_STORE;
    }
    area.fill(0);
    TAKEN
}

/// The call: answers as a hand-held that took the kept requests, and keeps a request that is taken; or 18, last and with nothing written.
pub fn plain_take(message: &[u8], area: &mut [u8], reply: &mut [u8]) -> Answer {
    let handheld = replayed(area);
    let is_area = handheld.is_some();
    let mut set = handheld.unwrap_or_else(|| Set::fresh(HANDHELD));
    let mut written = reply.to_vec();
    let answer = commit_from(message, is_area, &mut set, &mut written);
    // A result query that matches is answered 0 too, and is not kept.
    if answer.number == TAKEN && is_request(message) && keep(message, area).is_none() {
        return Answer { number: AREA_FULL, ..Answer::default() };
    }
    reply.copy_from_slice(&written);
    answer
}

/// Puts a request behind those of an area; nothing, and the area stays, where it passes the end.
fn keep(request: &[u8], area: &mut [u8]) -> Option<()> {
    let start = USED + used(area);
    let end = start + LENGTH + request.len();
    let record = area.get_mut(start..end)?;
    let (length, bytes) = record.split_at_mut(LENGTH);
    length.copy_from_slice(&(request.len() as u16).to_be_bytes());
    bytes.copy_from_slice(request);
    area[..USED].copy_from_slice(&((end - USED) as u32).to_be_bytes());
    Some(())
}

fn used(area: &[u8]) -> usize {
    u32::from_be_bytes([area[0], area[1], area[2], area[3]]) as usize
}

fn is_request(message: &[u8]) -> bool {
    of_kind(message, HANDHELD, REQUEST).is_ok()
}

/// Where each kept request stands; nothing where the bytes do not have the form of an area.
fn kept(area: &[u8]) -> Option<Vec<Range<usize>>> {
    if area.len() != AREA {
        return None;
    }
    let end = USED + used(area);
    if area.get(end..)?.iter().any(|&byte| byte != 0) {
        return None;
    }
    let mut requests = Vec::new();
    let mut at = USED;
    while at < end {
        let length = area[at..end].first_chunk::<LENGTH>()?;
        let start = at + LENGTH;
        at = start + usize::from(u16::from_be_bytes(*length));
        requests.push(start..at);
    }
    (at == end).then_some(requests)
}

/// A fresh hand-held after the kept requests, each of which it must take in its turn; nothing where the bytes are no area.
fn replayed(area: &[u8]) -> Option<Set> {
    let mut set = Set::fresh(HANDHELD);
    for place in kept(area)? {
        let request = &area[place];
        let answer = commit(request, &mut set, &mut [0; REPLY_ROOM]);
        if answer.number != TAKEN || !is_request(request) {
            return None;
        }
    }
    Some(set)
}
