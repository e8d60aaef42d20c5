//! Numbers, and line contacts of both IDtypes, so that one number often stands for two lines.

use super::{setting, Keys, Maker, Size, ADD, DELETE, REPLACE};
use crate::reference::bits::BitWriter;
use crate::reference::tables::Line;

const POOL_NUMBERS: usize = 28;

/// What tells lines apart: IDtype, true for PABX, and digits.
pub type LineKey = (bool, Vec<u8>);

/// Prefixes of one number, and a 1 behind ever more zeros.
fn pool_number(place: usize) -> Vec<u8> {
    if place < 18 {
        return (1..=place as u8 + 1).map(|digit| digit % 10).collect();
    }
    let mut digits = vec![0; place - 17];
    digits.push(1);
    digits
}

impl Maker<'_> {
    pub(super) fn digits(&mut self, keys: Keys) -> Vec<u8> {
        match keys {
            Keys::Known if !self.set.tables.lines.is_empty() => {
                let place = self.random.below(self.set.tables.lines.len());
                self.set.tables.lines[place].digits.clone()
            }
            Keys::Fresh => self.fresh_digits(),
            _ => pool_number(self.random.below(POOL_NUMBERS)),
        }
    }

    /// Long enough to be new almost surely.
    fn fresh_digits(&mut self) -> Vec<u8> {
        (0..self.random.within(9..=18)).map(|_| self.random.below(10) as u8).collect()
    }

    /// Keys that none of these lines has: first numbers of theirs with the other IDtype, then new numbers, some of them with both.
    pub fn new_keys(&mut self, lines: &[Line], count: usize) -> Vec<LineKey> {
        let mut keys = Vec::new();
        for line in lines {
            let other = (!line.flags.pabx, &line.digits[..]);
            if self.random.percent(15) && lines.iter().all(|line| line.key() != other) {
                keys.push((other.0, other.1.to_vec()));
            }
        }
        while keys.len() < count {
            let (pabx, digits) = (self.random.flag(), self.fresh_digits());
            if self.random.percent(20) {
                keys.push((!pabx, digits.clone()));
            }
            keys.push((pabx, digits));
        }
        keys.truncate(count);
        keys
    }

    pub(super) fn number(&mut self, bits: &mut BitWriter, mut digits: Vec<u8>) {
        if self.slip() {
            match self.random.below(4) {
                0 => digits.clear(),
                1 => digits.resize(19, 7),
                2 => digits.resize(20, 7),
                _ => {
                    let place = self.random.below(digits.len());
                    digits[place] = self.random.within(10..=14) as u8;
                }
            }
        }
        digits.iter().for_each(|&digit| bits.bits(u32::from(digit), 4));
        bits.bits(15, 4);
        self.fill(bits);
    }

    /// Of either IDtype, wherever the numbers come from: half of the known ones then belong to the other.
    pub(super) fn lines(&mut self, size: Size) -> Vec<u8> {
        let operation = self.operation(&[ADD, ADD, DELETE, REPLACE]);
        let count = self.count(size, 255);
        let (pabx, keys) = (self.random.flag(), self.keys());
        let numbers = (0..count).map(|_| self.digits(keys)).collect();
        self.line_setting(operation, pabx, numbers)
    }

    fn line_setting(&mut self, operation: u32, pabx: bool, numbers: Vec<Vec<u8>>) -> Vec<u8> {
        let mut bits = BitWriter::new();
        let most = if numbers.len() > 60 { 4 } else { 16 };
        bits.bits(operation, 2);
        self.flags(&mut bits, 4);
        bits.flag(pabx);
        self.reserved(&mut bits, 1);
        bits.bits(numbers.len() as u32, 8);
        for digits in numbers {
            self.number(&mut bits, digits);
            self.text(&mut bits, 0, most);
        }
        setting(0xCA, bits)
    }

    /// A setting for each IDtype, in either order; one that has no key is sent with Count 0.
    fn line_settings(&mut self, operation: u32, keys: Vec<LineKey>) -> [Vec<u8>; 2] {
        let first = self.random.flag();
        let (same, other): (Vec<_>, Vec<_>) = keys.into_iter().partition(|key| key.0 == first);
        [(first, same), (!first, other)].map(|(pabx, keys)| {
            let numbers = keys.into_iter().map(|(_, digits)| digits).collect();
            self.line_setting(operation, pabx, numbers)
        })
    }

    /// Adds these keys, for filling the table exactly.
    pub fn add_lines(&mut self, keys: Vec<LineKey>) -> [Vec<u8>; 2] {
        self.line_settings(ADD, keys)
    }

    pub fn delete_lines(&mut self, keys: Vec<LineKey>) -> [Vec<u8>; 2] {
        self.line_settings(DELETE, keys)
    }
}
