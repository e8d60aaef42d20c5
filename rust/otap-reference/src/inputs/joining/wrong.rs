//! Every way to break one rule of joining and no other, and what it is refused with.

use super::*;
use crate::inputs::carriers::{other_type, other_version, wrong_byte, wrong_length};
use crate::inputs::damage::UNKNOWN_TYPES;
use crate::inputs::longest_input;
use crate::inputs::maker::{slipped, Maker, TYPES};
use crate::reference::message::SHORTEST;
use crate::reference::numbers::{
    BAD_FIELD, MESSAGE_LENGTH, UNKNOWN_TYPE, WRONG_CARRIER, WRONG_MESSAGE_TYPE, WRONG_VERSION,
};

/// What joining is strict about: first all of one request, then what is of both.
#[derive(Clone, Copy, Debug, PartialEq, Eq)]
pub enum Wrong {
    Size,
    /// A start byte or the MFID.
    Carrier,
    StatedLength,
    MessageType,
    Version,
    NoSum,
    SumOfZero,
    Coding,
    UnknownType,
    /// One value of a setting is out of its range.
    Field,
    Cut,
    /// More settings are counted than there are.
    Missing,
    LeftOver,
    /// An item FF before another setting.
    EarlyLast,
    Last,
    TwoCodings,
    TooMany,
    TooLong,
}

impl Wrong {
    pub const ALL: [Wrong; 18] = [
        Wrong::Size,
        Wrong::Carrier,
        Wrong::StatedLength,
        Wrong::MessageType,
        Wrong::Version,
        Wrong::NoSum,
        Wrong::SumOfZero,
        Wrong::Coding,
        Wrong::UnknownType,
        Wrong::Field,
        Wrong::Cut,
        Wrong::Missing,
        Wrong::LeftOver,
        Wrong::EarlyLast,
        Wrong::Last,
        Wrong::TwoCodings,
        Wrong::TooMany,
        Wrong::TooLong,
    ];

    /// How many of them are of one request.
    const OF_ONE: usize = 15;

    /// What the call answers.
    fn number(self) -> u8 {
        match self {
            Wrong::Size | Wrong::TooLong => MESSAGE_LENGTH,
            Wrong::Carrier | Wrong::StatedLength => WRONG_CARRIER,
            Wrong::MessageType => WRONG_MESSAGE_TYPE,
            Wrong::Version => WRONG_VERSION,
            Wrong::UnknownType => UNKNOWN_TYPE,
            _ => BAD_FIELD,
        }
    }

    fn refused(self, failed: u8, second: bool) -> Option<Result<(), Refused>> {
        Some(Err(Refused { number: self.number(), failed, second }))
    }
}

/// A message, and the failed ID that it is refused with.
type WrongRequest = (Vec<u8>, u8);

/// Two requests that may be joined but for this, in either of them where it is of one.
pub fn wrong_pair(random: &mut Random, set: &Set, wrong: Wrong) -> JoinInput {
    let pair = match wrong {
        Wrong::TwoCodings => any_pair(random, set, false),
        Wrong::TooMany => {
            let count = random.pick(&[256, 256, 257, 300, 509, 510]);
            pair_of_count(random, set, count)
        }
        Wrong::TooLong => {
            let most = set.limits.message;
            let over = random.pick(&[1, 1, 2, 8, 100, most - REQUEST_HEAD]);
            pair_of_size(random, set, most + over)
        }
        _ => return wrong_in_one(random, set, wrong),
    };
    let [first, second] = pair.map(|draft| draft.bytes());
    JoinInput { first, second, answer: wrong.refused(0, false) }
}

fn wrong_in_one(random: &mut Random, set: &Set, wrong: Wrong) -> JoinInput {
    let [first, second] = roomy_pair(random, set);
    if random.flag() {
        let (second, failed) = damaged(random, set, second, wrong);
        return JoinInput { first: first.bytes(), second, answer: wrong.refused(failed, true) };
    }
    let (first, failed) = damaged(random, set, first, wrong);
    JoinInput { first, second: second.bytes(), answer: wrong.refused(failed, false) }
}

/// Something is wrong with each: the first is what counts.
pub fn wrong_pairs(random: &mut Random, set: &Set) -> JoinInput {
    let [wrong, other] = [(); 2].map(|()| Wrong::ALL[random.below(Wrong::OF_ONE)]);
    let [first, second] = roomy_pair(random, set);
    let (first, failed) = damaged(random, set, first, wrong);
    let (second, _) = damaged(random, set, second, other);
    JoinInput { first, second, answer: wrong.refused(failed, false) }
}

/// With room in each for a setting more, or for a longer one.
fn roomy_pair(random: &mut Random, set: &Set) -> [Draft; 2] {
    let room = set.limits.message - 1_096;
    loop {
        let pair = any_pair(random, set, true);
        if pair.iter().all(|draft| draft.settings.len() < MOST_SETTINGS && draft.size() < room) {
            return pair;
        }
    }
}

fn damaged(random: &mut Random, set: &Set, draft: Draft, wrong: Wrong) -> WrongRequest {
    match wrong {
        Wrong::UnknownType | Wrong::Field | Wrong::Cut | Wrong::EarlyLast | Wrong::Last => {
            wrong_setting(random, set, draft, wrong)
        }
        Wrong::SumOfZero | Wrong::Missing | Wrong::LeftOver => {
            wrong_count(random, set, draft, wrong)
        }
        _ => wrong_head(random, set, draft, wrong),
    }
}

/// What is wrong before the first setting has no failed ID.
fn wrong_head(random: &mut Random, set: &Set, mut draft: Draft, wrong: Wrong) -> WrongRequest {
    let mut message = draft.bytes();
    match wrong {
        Wrong::Carrier => wrong_byte(random, &mut message),
        Wrong::MessageType => other_type(random, &mut message),
        Wrong::Version => other_version(random, &mut message),
        Wrong::StatedLength => wrong_length(random, &mut message),
        Wrong::NoSum => {
            message.truncate(SHORTEST);
            message[2..4].copy_from_slice(&if draft.stated { [0, 3] } else { [0, 0] });
        }
        Wrong::Coding => {
            let codings = [0, 1, 2, 3, 5, 6, 8, 9, 10, 11, 12, 13, 14, 15];
            draft.coding_byte = draft.coding_byte & 0xF0 | random.pick(&codings);
            message = draft.bytes();
        }
        _ => wrong_size(random, set, &mut message),
    }
    (message, 0)
}

fn wrong_size(random: &mut Random, set: &Set, message: &mut Vec<u8>) {
    if random.flag() {
        message.truncate(random.below(SHORTEST));
        return;
    }
    let mut draft = Draft::new(random, set.limits);
    let size = if random.flag() { set.limits.message + 1 } else { longest_input(set.limits) };
    fill(random, set, &mut draft, size);
    *message = draft.bytes();
}

/// ParamSum is not the number of settings.
fn wrong_count(random: &mut Random, set: &Set, mut draft: Draft, wrong: Wrong) -> WrongRequest {
    let truth = draft.settings.len() as u8;
    let failed = match wrong {
        Wrong::SumOfZero => {
            draft.sum = Some(0);
            0
        }
        Wrong::Missing => {
            draft.sum = Some(random.pick(&[truth + 1, 255]));
            truth + 1
        }
        _ => {
            draft.sum = Some(truth);
            // What is left over may look like a setting, and even like an item FF.
            let more = match random.below(3) {
                0 => maker(random, set, &draft).any(Size::Small),
                1 => maker(random, set, &draft).last(),
                _ => random.bytes_up_to(20),
            };
            draft.settings.push(more);
            0
        }
    };
    (draft.bytes(), failed)
}

fn wrong_setting(random: &mut Random, set: &Set, mut draft: Draft, wrong: Wrong) -> WrongRequest {
    let mut place = random.below(draft.settings.len());
    match wrong {
        Wrong::UnknownType => draft.settings[place][0] = random.pick(&UNKNOWN_TYPES),
        Wrong::Field => draft.settings[place] = out_of_range(random, set, draft.coding),
        Wrong::Cut => {
            place = draft.settings.len() - 1;
            let last = &mut draft.settings[place];
            last.truncate(random.below(last.len()));
        }
        _ => {
            // Behind all settings it is the item FF that no joined request has; before one it is at fault itself.
            place = if wrong == Wrong::Last { draft.settings.len() } else { place };
            let last = maker(random, set, &draft).last();
            draft.settings.insert(place, last);
        }
    }
    (draft.bytes(), place as u8 + 1)
}

/// One value of a setting is, whose range holds: in a delete of D1 or D2 only the index counts.
fn out_of_range(random: &mut Random, set: &Set, coding: Coding) -> Vec<u8> {
    loop {
        let kind = random.pick(&TYPES);
        let make = |maker: &mut Maker| maker.of_type(kind, Size::Small);
        let setting = slipped(random, set, coding, make);
        if !matches!((kind, setting[3] >> 6), (0xD1 | 0xD2, 0b10)) {
            return setting;
        }
    }
}
