//! Pairs of requests for the join call: such as may be joined, with one thing wrong, and changed anywhere.

#[cfg(test)]
mod tests;
pub mod wrong;

use super::draft::Draft;
use super::maker::Size;
use super::random::Random;
use super::requests::{fill, maker, request};
use crate::reference::joining::Refused;
use crate::reference::message::REQUEST_HEAD;
use crate::reference::tables::Set;
use crate::reference::texts::Coding;
use wrong::{wrong_pair, wrong_pairs, Wrong};

/// Two requests, and where one can tell, whether they are joined and with what they are refused.
#[derive(Clone, Debug, PartialEq, Eq)]
pub struct JoinInput {
    pub first: Vec<u8>,
    pub second: Vec<u8>,
    pub answer: Option<Result<(), Refused>>,
}

/// The types of settings that can replace.
const REPLACING: [u8; 6] = [0xC8, 0xC9, 0xCA, 0xCC, 0xCE, 0xD0];

/// The type byte of the last item.
const LAST: u8 = 0xFF;

/// The bytes of a request with the shortest setting.
const SHORTEST_REQUEST: usize = REQUEST_HEAD + 4;

/// What ParamSum can say.
const MOST_SETTINGS: usize = 255;

pub fn input(random: &mut Random, set: &Set) -> JoinInput {
    match random.below(20) {
        0..=8 => {
            let [first, second] = good_pair(random, set).map(|draft| draft.bytes());
            JoinInput { first, second, answer: Some(Ok(())) }
        }
        9..=14 => {
            let wrong = random.pick(&Wrong::ALL);
            wrong_pair(random, set, wrong)
        }
        15..=16 => wrong_pairs(random, set),
        _ => changed(random, set),
    }
}

/// Two requests that may be joined, of any shape, or with as many settings or bytes as one header allows.
pub fn good_pair(random: &mut Random, set: &Set) -> [Draft; 2] {
    match random.below(12) {
        0 => pair_of_count(random, set, MOST_SETTINGS),
        1 => pair_of_size(random, set, set.limits.message),
        _ => any_pair(random, set, true),
    }
}

/// Whether what a pair is together stays in its bounds.
fn fits(pair: &[Draft; 2]) -> bool {
    let [first, second] = pair;
    first.settings.len() + second.settings.len() <= MOST_SETTINGS
        && first.size() + second.size() - REQUEST_HEAD <= first.limits.message
}

/// As requests come, without their items FF; with one coding type or with two.
fn any_pair(random: &mut Random, set: &Set, one_coding: bool) -> [Draft; 2] {
    loop {
        let mut pair = [(); 2].map(|()| request(random, set));
        for draft in &mut pair {
            draft.settings.retain(|setting| setting[0] != LAST);
        }
        let has_settings = pair.iter().all(|draft| !draft.settings.is_empty());
        let has_one_coding = pair[0].coding == pair[1].coding;
        if has_settings && has_one_coding == one_coding && fits(&pair) {
            return pair.map(|draft| with_reserved(random, draft));
        }
    }
}

/// Reserved bits beside the coding type are mostly 0 and must not matter when they are not.
pub(super) fn with_reserved(random: &mut Random, mut draft: Draft) -> Draft {
    if random.percent(25) {
        draft.coding_byte |= (random.bits(4) as u8) << 4;
    }
    draft
}

/// So many settings together, all of them short.
fn pair_of_count(random: &mut Random, set: &Set, count: usize) -> [Draft; 2] {
    let least = count.saturating_sub(MOST_SETTINGS).max(1);
    let first = random.within(least..=count - least);
    let coding = random.pick(&Coding::ALL);
    [first, count - first].map(|count| {
        let mut draft = Draft::of(random, set.limits, coding);
        for _ in 0..count {
            let kind = random.pick(&[0xCB, 0xCD, 0xCF]);
            draft.settings.push(maker(random, set, &draft).of_type(kind, Size::Small));
        }
        with_reserved(random, draft)
    })
}

/// So many bytes when joined.
fn pair_of_size(random: &mut Random, set: &Set, size: usize) -> [Draft; 2] {
    let both = size + REQUEST_HEAD;
    let least = both.saturating_sub(set.limits.message).max(SHORTEST_REQUEST);
    loop {
        let first = random.within(least..=both - least);
        let coding = random.pick(&Coding::ALL);
        let pair = [first, both - first].map(|size| {
            let mut draft = Draft::of(random, set.limits, coding);
            fill(random, set, &mut draft, size);
            with_reserved(random, draft)
        });
        if pair[0].settings.len() + pair[1].settings.len() <= MOST_SETTINGS {
            return pair;
        }
    }
}

/// Bits or bytes changed in one of the two or in both, which at times leave two that may be joined.
fn changed(random: &mut Random, set: &Set) -> JoinInput {
    let mut pair = any_pair(random, set, true).map(|draft| draft.bytes());
    for _ in 0..random.pick(&[1, 1, 1, 2, 3]) {
        let message = &mut pair[random.below(2)];
        let place = random.below(message.len());
        let bit = 1 << random.below(8);
        message[place] = if random.flag() { message[place] ^ bit } else { random.bits(8) as u8 };
    }
    let [first, second] = pair;
    JoinInput { first, second, answer: None }
}

/// A request whose settings all replace, at times with an item FF behind them: sent twice it is as sent once.
pub fn replacing(random: &mut Random, set: &Set) -> Draft {
    let mut draft = Draft::new(random, set.limits);
    for _ in 0..random.pick(&[1, 1, 2, 3, 6]) {
        let kind = random.pick(&REPLACING);
        let size = if random.percent(20) { Size::Large } else { Size::Small };
        // The operation stands in the first two bits of the fields.
        let setting = std::iter::repeat_with(|| maker(random, set, &draft).of_type(kind, size))
            .find(|setting| setting[3] >> 6 == 3)
            .expect("one of four replaces");
        draft.push_if_room(setting);
    }
    if draft.settings.is_empty() || random.flag() {
        draft.push_if_room(maker(random, set, &draft).last());
    }
    draft
}
