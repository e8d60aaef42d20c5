//! A request still in pieces, so that it can be damaged where it hurts.

use super::random::Random;
use crate::reference::limits::Limits;
use crate::reference::message::{first_byte, MFID, REQUEST, REQUEST_HEAD, START};
use crate::reference::texts::Coding;

pub struct Draft {
    /// Of the set that it is for.
    pub limits: Limits,
    pub settings: Vec<Vec<u8>>,
    /// ParamSum where it is not the number of settings.
    pub sum: Option<u8>,
    /// What the texts are written in.
    pub coding: Coding,
    /// The carrier's byte with the coding type, which need not be that one.
    pub coding_byte: u8,
    /// Whether the carrier states its length or says 0.
    pub stated: bool,
}

impl Draft {
    /// No settings yet, and either coding type.
    pub fn new(random: &mut Random, limits: Limits) -> Self {
        let coding = random.pick(&Coding::ALL);
        Draft::of(random, limits, coding)
    }

    pub fn of(random: &mut Random, limits: Limits, coding: Coding) -> Self {
        let stated = random.percent(70);
        let (settings, coding_byte) = (Vec::new(), coding.number());
        Draft { limits, settings, sum: None, coding, coding_byte, stated }
    }

    /// Bytes the request takes.
    pub fn size(&self) -> usize {
        REQUEST_HEAD + self.settings.iter().map(Vec::len).sum::<usize>()
    }

    pub fn push_if_room(&mut self, setting: Vec<u8>) {
        if self.size() + setting.len() <= self.limits.message && self.settings.len() < 255 {
            self.settings.push(setting);
        }
    }

    pub fn bytes(&self) -> Vec<u8> {
        let sum = self.sum.unwrap_or(self.settings.len() as u8);
        let mut data = vec![first_byte(REQUEST), sum];
        self.settings.iter().for_each(|setting| data.extend(setting));
        carried(self.coding_byte, &data, self.stated)
    }
}

pub fn carried(coding: u8, data: &[u8], stated: bool) -> Vec<u8> {
    let length = if stated { data.len() as u16 + 2 } else { 0 };
    let mut message = START.to_vec();
    message.extend(length.to_be_bytes());
    message.extend([MFID, coding]);
    message.extend(data);
    message
}

/// Makes the stated length true again after a cut, most of the time.
pub fn restate(random: &mut Random, message: &mut [u8]) {
    let unstated = message.len() >= 4 && message[2..4] == [0, 0];
    if message.len() < 5 || unstated || random.percent(15) {
        return;
    }
    let length = message.len() as u16 - 4;
    message[2..4].copy_from_slice(&length.to_be_bytes());
}
