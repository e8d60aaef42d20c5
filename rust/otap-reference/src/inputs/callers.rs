//! Callers to look up: a line's own key, and such as differ from one in the length, a digit or the IDtype.

use super::random::Random;
use crate::reference::settings::MOST_DIGITS;
use crate::reference::tables::{Line, Tables};

/// What an incoming line call brings: an IDtype, and digits, one a byte.
#[derive(Clone, Debug, PartialEq, Eq)]
pub struct Caller {
    pub id_type: u32,
    pub digits: Vec<u8>,
}

/// IDtypes that no line has; most are 0 or 1 in their low byte, half or bit.
const NO_ID_TYPES: [u32; 8] = [2, 3, 0x100, 0x101, 0x1_0000, 0x1_0001, 0x8000_0000, u32::MAX];

/// Above 9; some are a digit in their low bits, or as a character.
const NO_DIGITS: [u8; 7] = [10, 11, 15, 16, b'2', 0x83, 255];

/// A line's key as it is, or one or two changes away from it.
pub fn caller(random: &mut Random, tables: &Tables) -> Caller {
    let mut caller = known(random, tables);
    for _ in 0..random.pick(&[0, 0, 0, 1, 1, 1, 2]) {
        change(random, &mut caller);
    }
    caller
}

/// A line contact's key, now and then a line slot's, which is not looked up; where there is none, any number.
fn known(random: &mut Random, tables: &Tables) -> Caller {
    let slots = tables.line_slots.iter().flatten();
    let lines: Vec<&Line> =
        if random.percent(90) { tables.lines.iter().collect() } else { slots.collect() };
    if lines.is_empty() {
        return any(random);
    }
    let line = random.pick(&lines);
    Caller { id_type: line.flags.pabx.into(), digits: line.digits.clone() }
}

fn any(random: &mut Random) -> Caller {
    let length = random.within(1..=MOST_DIGITS);
    let digits = (0..length).map(|_| random.below(10) as u8).collect();
    Caller { id_type: random.bits(1), digits }
}

fn change(random: &mut Random, caller: &mut Caller) {
    let digits = &mut caller.digits;
    match random.below(11) {
        // The number of which it is one digit more, or another that it starts with; at times no digits.
        0 => drop(digits.pop()),
        1 => digits.truncate(random.below(digits.len() + 1)),
        // One digit more, behind or before; at times the 19th.
        2 => digits.push(random.below(10) as u8),
        3 => digits.insert(0, 0),
        4 => put_digit(random.below(10) as u8, random, digits),
        5 => put_digit(random.pick(&NO_DIGITS), random, digits),
        6 => digits.clear(),
        7 => digits.resize(random.pick(&[17, 18, 19, 19, 20, 255]), 7),
        8 => caller.id_type ^= 1,
        9 => caller.id_type = random.pick(&NO_ID_TYPES),
        _ => *caller = any(random),
    }
}

/// Anywhere in a number, if there is one.
fn put_digit(digit: u8, random: &mut Random, digits: &mut [u8]) {
    if !digits.is_empty() {
        digits[random.below(digits.len())] = digit;
    }
}
