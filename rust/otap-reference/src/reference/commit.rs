//! Judging and committing one message (document 02, A6): the order of judgement, the answer and the reply.

use super::limits::Limits;
use super::message::{self, admitted, asked, Hash, Opened};
use super::numbers::*;
use super::settings::{parse, Fault, LastItem, Setting};
use super::tables::{NoRoom, Set};
use super::texts::Coding;

#[cfg(test)]
mod tests;

pub const REPLY_ROOM: usize = 20;

#[derive(Clone, Copy, Debug, Default, PartialEq, Eq)]
pub struct Answer {
    pub number: u8,
    pub failed: u8,
    pub send: bool,
    pub reboot: bool,
    pub length: usize,
}

/// What a message comes to, before the reply is written.
struct Verdict {
    number: u8,
    failed: u8,
    send: bool,
    reboot: bool,
}

impl Verdict {
    fn refused(number: u8, failed: u8) -> Self {
        Verdict { number, failed, send: true, reboot: false }
    }
}

/// Says what committing would answer and writes the reply that it would write; the set stays.
pub fn judge(message: &[u8], set: &Set, reply: &mut [u8]) -> Answer {
    judge_from(message, true, set, reply)
}

/// Takes a message into a set whose store has the right size. It judges anew: the set may have changed since it was judged.
pub fn commit(message: &[u8], set: &mut Set, reply: &mut [u8]) -> Answer {
    commit_from(message, true, set, reply)
}

/// What the programs do: judge, and commit where that comes to 0. The answer and the reply are those of the last of the two.
pub fn judge_and_commit(message: &[u8], set: &mut Set, reply: &mut [u8]) -> Answer {
    let judged = judge(message, set, reply);
    if judged.number == TAKEN {
        commit(message, set, reply)
    } else {
        judged
    }
}

/// As `judge`; `is_store` says whether the other side's bytes were a store at all.
pub fn judge_from(message: &[u8], is_store: bool, set: &Set, reply: &mut [u8]) -> Answer {
    decide(message, is_store, set, reply).0
}

/// As `commit`; `is_store` as there.
pub fn commit_from(message: &[u8], is_store: bool, set: &mut Set, reply: &mut [u8]) -> Answer {
    let (answer, next) = decide(message, is_store, set, reply);
    if let Some(next) = next {
        *set = next;
    }
    answer
}

/// The answer, with its reply written, and the set after a request that is taken.
fn decide(message: &[u8], is_store: bool, set: &Set, reply: &mut [u8]) -> (Answer, Option<Set>) {
    let opened = match admit(message, is_store, set.limits, reply.len()) {
        Ok(opened) => opened,
        Err(number) => return (Answer { number, ..Answer::default() }, None),
    };
    let (verdict, next) = settle(&opened, set);
    let hash = match verdict.number {
        WRONG_VERSION..=BAD_FIELD => &Hash::Nothing,
        _ => &next.as_ref().unwrap_or(set).hash,
    };
    let bytes = message::reply(verdict.number, verdict.failed, hash);
    reply[..bytes.len()].copy_from_slice(&bytes);
    let Verdict { number, failed, send, reboot } = verdict;
    (Answer { number, failed, send, reboot, length: bytes.len() }, next)
}

/// The refusals without a reply, in their order.
fn admit(
    message: &[u8],
    is_store: bool,
    limits: Limits,
    reply_room: usize,
) -> Result<Opened<'_>, u8> {
    if reply_room < REPLY_ROOM {
        return Err(REPLY_SHORT);
    }
    if !is_store {
        return Err(NOT_A_STORE);
    }
    admitted(message, limits, &[message::REQUEST, message::QUERY])
}

/// What a message comes to, and the set after a request that is taken.
fn settle(opened: &Opened, set: &Set) -> (Verdict, Option<Set>) {
    if opened.version != message::VERSION {
        return (Verdict::refused(WRONG_VERSION, 0), None);
    }
    if opened.kind == message::QUERY {
        return (answer_query(opened.body, set), None);
    }
    match read_request(opened, set) {
        Err((number, failed)) => (Verdict::refused(number, failed), None),
        Ok((next, last)) => {
            let (send, reboot) = last.map_or((false, false), |last| (last.reply, last.reboot));
            (Verdict { number: TAKEN, failed: 0, send, reboot }, Some(next))
        }
    }
}

fn answer_query(body: &[u8], set: &Set) -> Verdict {
    let number = match asked(body) {
        None => BAD_FIELD,
        Some(hash) if hash != Hash::Nothing && hash == set.hash => TAKEN,
        Some(_) => NO_MATCH,
    };
    Verdict { number, failed: 0, send: true, reboot: false }
}

/// The set after the request and its last item, or the number and failed ID.
fn read_request(opened: &Opened, set: &Set) -> Result<(Set, Option<LastItem>), (u8, u8)> {
    let mut tables = set.tables.clone();
    let mut units = tables.units();
    let mut last = None;
    each_setting(opened, |setting| {
        if let Setting::Last(item) = &setting {
            last = Some(item.clone());
        }
        tables.apply_counting(setting, set.limits, &mut units)
    })?;
    let hash = last.as_ref().map_or(Hash::Nothing, |item| item.hash.clone());
    Ok((Set { limits: set.limits, tables, hash }, last))
}

/// Hands on each setting of a request in turn, to be given room or not; or the number and failed ID of what is wrong first.
pub(super) fn each_setting(
    opened: &Opened,
    mut give_room: impl FnMut(Setting) -> Result<(), NoRoom>,
) -> Result<(), (u8, u8)> {
    let sum = *opened.body.first().unwrap_or(&0);
    let coding = Coding::from_number(opened.coding).filter(|_| sum != 0).ok_or((BAD_FIELD, 0))?;
    let mut rest = &opened.body[1..];
    for place in 1..=sum {
        let (setting, length) =
            parse(rest, coding, place == sum).map_err(|fault| (fault_number(fault), place))?;
        rest = &rest[length..];
        give_room(setting).map_err(|NoRoom| (NO_ROOM, place))?;
    }
    if rest.is_empty() {
        Ok(())
    } else {
        Err((BAD_FIELD, 0))
    }
}

fn fault_number(fault: Fault) -> u8 {
    match fault {
        Fault::UnknownType => UNKNOWN_TYPE,
        Fault::Field => BAD_FIELD,
    }
}
