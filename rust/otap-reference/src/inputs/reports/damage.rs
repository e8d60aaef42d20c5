//! A message of a report still in pieces, and every way to break one of its rules and no other.

use crate::inputs::carriers::{other_type, other_version, wrong_byte, wrong_length};
use crate::inputs::draft::carried;
use crate::inputs::maker::parameters::ASKED;
use crate::inputs::maker::{slipped, Maker};
use crate::inputs::random::Random;
use crate::reference::limits::Limits;
use crate::reference::message::{first_byte, REPORT, SHORTEST};
use crate::reference::numbers::{
    BAD_FIELD, MESSAGE_LENGTH, WRONG_CARRIER, WRONG_MESSAGE_TYPE, WRONG_VERSION,
};
use crate::reference::reports::REPORT_HEAD;
use crate::reference::tables::Set;
use crate::reference::texts::Coding;

/// The one that a report may have.
const CODING: Coding = Coding::Unicode;

/// What the reader is strict about.
#[derive(Clone, Copy, Debug, PartialEq, Eq)]
pub enum Damage {
    Size,
    /// A start byte or the MFID.
    Carrier,
    StatedLength,
    MessageType,
    Version,
    Coding,
    /// No total, no index or no ParamSum.
    Head,
    NoTotal,
    Index,
    Sum,
    /// ParamSum 0 in a report of several messages.
    NoParameters,
    Behind,
    Cut,
    /// An error that is not the last parameter.
    EarlyError,
    /// An error in a message that is not the last.
    ErrorGoesOn,
    /// Another result than `83`, or a byte that asks.
    Error,
    /// One value of a parameter is out of its range.
    Parameter,
}

impl Damage {
    pub const ALL: [Damage; 17] = [
        Damage::Size,
        Damage::Carrier,
        Damage::StatedLength,
        Damage::MessageType,
        Damage::Version,
        Damage::Coding,
        Damage::Head,
        Damage::NoTotal,
        Damage::Index,
        Damage::Sum,
        Damage::NoParameters,
        Damage::Behind,
        Damage::Cut,
        Damage::EarlyError,
        Damage::ErrorGoesOn,
        Damage::Error,
        Damage::Parameter,
    ];

    /// What the reader answers.
    pub fn number(self) -> u8 {
        match self {
            Damage::Size => MESSAGE_LENGTH,
            Damage::Carrier | Damage::StatedLength => WRONG_CARRIER,
            Damage::MessageType => WRONG_MESSAGE_TYPE,
            Damage::Version => WRONG_VERSION,
            _ => BAD_FIELD,
        }
    }
}

pub struct ReportDraft {
    /// Of the set that it is from.
    limits: Limits,
    pub total: u8,
    pub index: u8,
    pub parameters: Vec<Vec<u8>>,
    /// ParamSum where it is not the number of parameters.
    pub sum: Option<u8>,
    /// The carrier's byte with the coding type.
    pub coding_byte: u8,
    /// Whether the carrier states its length or says 0.
    pub stated: bool,
}

impl ReportDraft {
    /// In good form, with parameters of any type in any order, and at times an error behind them.
    pub fn new(random: &mut Random, set: &Set) -> Self {
        let total = random.pick(&[1, 1, 1, 2, 3, 229, 255]);
        let index = if random.flag() { total } else { random.within(1..=total.into()) as u8 };
        let reserved = if random.percent(75) { 0 } else { random.bits(4) as u8 };
        let coding_byte = reserved << 4 | CODING.number();
        let stated = random.percent(70);
        let (limits, parameters) = (set.limits, Vec::new());
        let mut draft =
            ReportDraft { limits, total, index, parameters, sum: None, coding_byte, stated };
        let least = usize::from(total != 1);
        for _ in 0..random.pick(&[0, 1, 2, 3, 5, 20, 255]).max(least) {
            let asked = random.pick(&ASKED);
            draft.push_if_room(maker(random, set).parameter(asked));
        }
        if index == total && random.percent(25) {
            draft.push_if_room(maker(random, set).error());
        }
        draft
    }

    /// Only what still leaves a message in good form, with a few bytes to spare for a damage.
    fn push_if_room(&mut self, parameter: Vec<u8>) {
        let size = REPORT_HEAD + self.parameters.iter().map(Vec::len).sum::<usize>();
        if size + parameter.len() + 200 <= self.limits.message && self.parameters.len() < 255 {
            self.parameters.push(parameter);
        }
    }

    pub fn bytes(&self) -> Vec<u8> {
        carried(self.coding_byte, &self.data(), self.stated)
    }

    fn data(&self) -> Vec<u8> {
        let sum = self.sum.unwrap_or(self.parameters.len() as u8);
        let head = vec![first_byte(REPORT), self.total, self.index, sum];
        [head, self.parameters.concat()].concat()
    }

    /// Puts this behind all others, in the place of an error if there is one, which 83 tells.
    fn end_with(&mut self, error: Vec<u8>) {
        self.parameters.truncate(254);
        self.parameters.pop_if(|last| last[1] == 0x83);
        self.parameters.push(error);
    }

    /// Puts a parameter in the place of another, or first where there is none.
    fn put(&mut self, random: &mut Random, parameter: Vec<u8>) {
        let last = self.parameters.len().saturating_sub(1);
        match self.parameters.get_mut(random.within(0..=last)) {
            Some(place) => *place = parameter,
            None => self.parameters.push(parameter),
        }
    }
}

fn maker<'a>(random: &'a mut Random, set: &'a Set) -> Maker<'a> {
    Maker { random, set, coding: CODING, slip_after: None }
}

/// A message that is a report but for this.
pub fn damaged(random: &mut Random, set: &Set, damage: Damage) -> Vec<u8> {
    let mut draft = ReportDraft::new(random, set);
    match damage {
        Damage::Coding => draft.coding_byte ^= random.within(1..=15) as u8,
        Damage::NoTotal => (draft.total, draft.index) = (0, random.pick(&[0, 1, draft.index])),
        Damage::Index => draft.index = wrong_index(random, draft.total),
        Damage::Sum => draft.sum = Some(wrong_sum(random, draft.parameters.len() as u8)),
        Damage::NoParameters => {
            draft.total = draft.total.max(2);
            draft.parameters.clear();
        }
        Damage::Cut => cut_last(random, set, &mut draft),
        Damage::EarlyError => early_error(random, set, &mut draft),
        Damage::ErrorGoesOn => {
            draft.total = draft.total.max(2);
            draft.index = random.within(1..=usize::from(draft.total) - 1) as u8;
            draft.end_with(maker(random, set).error());
        }
        Damage::Error => {
            draft.index = draft.total;
            draft.end_with(slipped(random, set, CODING, |maker| maker.error()));
        }
        Damage::Parameter => {
            let asked = random.pick(&ASKED);
            let parameter = slipped(random, set, CODING, |maker| maker.parameter(asked));
            draft.put(random, parameter);
        }
        _ => return damaged_bytes(random, &draft, damage),
    }
    draft.bytes()
}

/// Those that are not of the data bytes' fields.
fn damaged_bytes(random: &mut Random, draft: &ReportDraft, damage: Damage) -> Vec<u8> {
    let mut message = draft.bytes();
    match damage {
        Damage::Size => wrong_size(random, draft, &mut message),
        Damage::Carrier => wrong_byte(random, &mut message),
        Damage::StatedLength => wrong_length(random, &mut message),
        Damage::MessageType => other_type(random, &mut message),
        Damage::Version => other_version(random, &mut message),
        Damage::Head => {
            let left = random.within(1..=3);
            message = carried(draft.coding_byte, &draft.data()[..left], draft.stated);
        }
        _ => {
            let behind = [draft.data(), random.bytes_up_to(20)].concat();
            message = carried(draft.coding_byte, &behind, draft.stated);
        }
    }
    message
}

/// A whole head is 10 bytes, so that fewer than 7 and more than the longest are the wrong sizes alone.
fn wrong_size(random: &mut Random, draft: &ReportDraft, message: &mut Vec<u8>) {
    if random.flag() {
        message.truncate(random.below(SHORTEST));
        return;
    }
    let mut data = draft.data();
    let most = draft.limits.message;
    data.resize(random.within(most - 5..=most + 100), 0);
    *message = carried(draft.coding_byte, &data, draft.stated);
}

fn wrong_index(random: &mut Random, total: u8) -> u8 {
    let above = random.pick(&[total.saturating_add(1), 255]);
    if above == total || random.flag() {
        0
    } else {
        above
    }
}

fn wrong_sum(random: &mut Random, truth: u8) -> u8 {
    let any = random.bits(8) as u8;
    let wrong = random.pick(&[truth.wrapping_add(1), truth.wrapping_sub(1), any]);
    if wrong == truth {
        truth.wrapping_add(1)
    } else {
        wrong
    }
}

/// Of each parameter no shorter bytes are one.
fn cut_last(random: &mut Random, set: &Set, draft: &mut ReportDraft) {
    if draft.parameters.is_empty() {
        let asked = random.pick(&ASKED);
        draft.parameters.push(maker(random, set).parameter(asked));
    }
    let last = draft.parameters.last_mut().expect("one was pushed");
    last.truncate(random.below(last.len()));
}

/// In the last message, so that only its place is wrong; what follows may be an error too.
fn early_error(random: &mut Random, set: &Set, draft: &mut ReportDraft) {
    draft.index = draft.total;
    draft.parameters.truncate(254);
    if draft.parameters.is_empty() {
        draft.parameters.push(maker(random, set).error());
    }
    let place = random.below(draft.parameters.len());
    draft.parameters.insert(place, maker(random, set).error());
}
