//! Messages to try an implementation with: seeded, of every kind, for one set as it grows.

pub mod apart;
pub mod callers;
pub mod calls;
pub mod carriers;
pub mod damage;
pub mod draft;
pub mod joining;
pub mod maker;
pub mod pokes;
pub mod random;
pub mod reports;
pub mod requests;
pub mod sweep;
pub mod updating;
pub mod values;

use crate::reference::commit::{judge_and_commit, REPLY_ROOM};
use crate::reference::export::{part_bytes, PARTS};
use crate::reference::limits::Limits;
use crate::reference::message::{first_byte, Hash, QUERY, SHORTEST};
use crate::reference::tables::Set;
use callers::Caller;
use draft::restate;
use joining::JoinInput;
use maker::pool_hash;
use random::Random;
use reports::{ReportCall, ReportInput};
use values::Value;

/// The longest message ever made for such a set, a little over the longest allowed.
pub fn longest_input(limits: Limits) -> usize {
    limits.message + 104
}

/// A sequence of messages; it follows the set, so as to reach full tables and matching queries.
pub struct Inputs {
    random: Random,
    set: Set,
}

impl Inputs {
    pub fn new(seed: u64, limits: Limits) -> Self {
        Inputs { random: Random::new(seed), set: Set::fresh(limits) }
    }

    /// The next message and a kind, which nobody judges.
    pub fn record(&mut self) -> (u16, Vec<u8>) {
        (self.kind(), self.message())
    }

    /// The same of a message for the office's reader; the set grows meanwhile.
    pub fn report_record(&mut self) -> (u16, Vec<u8>) {
        self.message();
        (self.kind(), self.report().message)
    }

    fn kind(&mut self) -> u16 {
        if self.random.percent(80) {
            self.random.within(1..=usize::from(PARTS)) as u16
        } else {
            self.random.bits(16) as u16
        }
    }

    pub fn message(&mut self) -> Vec<u8> {
        let message = message(&mut self.random, &self.set);
        judge_and_commit(&message, &mut self.set, &mut [0; REPLY_ROOM]);
        message
    }

    /// Who calls: mostly a line that the set holds, or one that comes near.
    pub fn caller(&mut self) -> Caller {
        callers::caller(&mut self.random, &self.set.tables)
    }

    /// What is asked for behind a row or of the settings: mostly where the set holds something.
    pub fn value(&mut self) -> Value {
        values::value(&mut self.random, &self.set)
    }

    /// A query with an index: mostly of a message that its report has.
    pub fn report_call(&mut self) -> ReportCall {
        reports::call(&mut self.random, &self.set)
    }

    /// A message for the office's reader: of the set's own reports, made up, or damaged.
    pub fn report(&mut self) -> ReportInput {
        reports::report(&mut self.random, &self.set)
    }

    /// A byte of such a message at which to look for a parameter.
    pub fn report_place(&mut self, message: &[u8]) -> u32 {
        reports::place(&mut self.random, message)
    }

    /// Two requests to join: such as may be, with one thing wrong, or changed anywhere.
    pub fn join(&mut self) -> JoinInput {
        joining::input(&mut self.random, &self.set)
    }
}

/// The next message for a set as it is; who follows the set takes it into it then.
pub fn message(random: &mut Random, set: &Set) -> Vec<u8> {
    let mut message = match random.below(100) {
        0..=39 => requests::request(random, set).bytes(),
        40..=72 => damaged(random, set),
        73..=84 => query(random, set),
        85..=93 => carrier(random, set),
        94..=96 => wrong_length(random, set),
        _ => exported(random, set),
    };
    message.truncate(longest_input(set.limits));
    message
}

fn damaged(random: &mut Random, set: &Set) -> Vec<u8> {
    let draft = requests::request(random, set);
    damage::damaged(random, set, draft)
}

fn query(random: &mut Random, set: &Set) -> Vec<u8> {
    let hash = match random.below(10) {
        0..=4 => set.hash.clone(),
        5..=8 => pool_hash(random),
        _ => Hash::Nothing,
    };
    let mut code = random.pick(&[0, 0, 0xC0, 0x40]) | hash.code();
    let mut value = hash.value().to_vec();
    match random.below(20) {
        0 => code = random.bits(8) as u8,
        1 => value.extend(random.bytes_up_to(12)),
        2 => drop(value.pop()),
        3 if !value.is_empty() => {
            let place = random.below(value.len());
            value[place] ^= 1 << random.below(8);
        }
        _ => {}
    }
    let mut data = vec![first_byte(QUERY), code];
    data.extend(value);
    let coding = random.bits(8) as u8;
    draft::carried(coding, &data, random.percent(70))
}

/// A good message with a wrong carrier, message type or version, at times several.
fn carrier(random: &mut Random, set: &Set) -> Vec<u8> {
    let query_first = random.percent(30);
    let mut message =
        if query_first { query(random, set) } else { requests::request(random, set).bytes() };
    for _ in 0..random.pick(&[1, 1, 1, 2]) {
        carriers::damage(random, &mut message);
    }
    message
}

/// Fewer than 7 bytes, just 7 or 8, or more than the longest allowed.
fn wrong_length(random: &mut Random, set: &Set) -> Vec<u8> {
    if random.percent(50) {
        let length = random.below(SHORTEST + 2);
        let mut message = requests::request(random, set).bytes();
        message.truncate(length);
        restate(random, &mut message);
        return message;
    }
    let length = random.within(set.limits.message..=longest_input(set.limits));
    requests::long(random, set, length).bytes()
}

fn exported(random: &mut Random, set: &Set) -> Vec<u8> {
    let part = random.within(1..=usize::from(PARTS)) as u8;
    part_bytes(part, set).expect("the part is one of the ten")
}
