//! Dialled numbers, addresses and channels, both ways (document 01, "Numbers, channels, screen").

use super::numbers::{NOT_IN_KIND, NO_SUCH_CHANNEL, OUTSIDE_PLAN};
use std::ops::RangeInclusive;

#[derive(Clone, Copy, Debug, PartialEq, Eq)]
pub struct IndividualAddress(pub u32);

#[derive(Clone, Copy, Debug, PartialEq, Eq)]
pub struct GroupAddress(pub u32);

const FIRST_ADDRESS: u32 = 0x10_0000;
const BLOCK: u32 = 32_768;
const PREFIXES: RangeInclusive<u32> = 328..=806;

/// Consecutive short addresses: `per_fleet` subscriber numbers for each fleet number.
struct Range {
    fleets: RangeInclusive<u32>,
    first_number: u32,
    per_fleet: u32,
    first_short: u32,
}

const INDIVIDUALS: [Range; 2] = [
    Range { fleets: 20..=41, first_number: 200, per_fleet: 700, first_short: 1 },
    Range { fleets: 42..=89, first_number: 200, per_fleet: 350, first_short: 15_401 },
];

const GROUPS: [Range; 1] =
    [Range { fleets: 20..=89, first_number: 900, per_fleet: 100, first_short: 1 }];

impl Range {
    fn short(&self, fleet: u32, number: u32) -> Option<u32> {
        let within = number.checked_sub(self.first_number)?;
        if !self.fleets.contains(&fleet) || within >= self.per_fleet {
            return None;
        }
        Some((fleet - self.fleets.start()) * self.per_fleet + within + self.first_short)
    }

    fn dialled(&self, short: u32) -> Option<u32> {
        let within = short.checked_sub(self.first_short)?;
        let fleet = self.fleets.start() + within / self.per_fleet;
        let number = self.first_number + within % self.per_fleet;
        self.fleets.contains(&fleet).then_some(fleet * 1_000 + number)
    }
}

/// Three digits NP, two FIN or FGN, three IN or GN.
fn address(ranges: &[Range], dialled: u32) -> Result<u32, u8> {
    let (prefix, fleet, number) = (dialled / 100_000, dialled / 1_000 % 100, dialled % 1_000);
    if !PREFIXES.contains(&prefix) {
        return Err(OUTSIDE_PLAN);
    }
    let short = ranges.iter().find_map(|range| range.short(fleet, number)).ok_or(OUTSIDE_PLAN)?;
    Ok((prefix - PREFIXES.start()) * BLOCK + FIRST_ADDRESS + short)
}

fn dialled(ranges: &[Range], address: u32) -> Result<u32, u8> {
    let offset = address.checked_sub(FIRST_ADDRESS).ok_or(NOT_IN_KIND)?;
    let prefix = offset / BLOCK + PREFIXES.start();
    if !PREFIXES.contains(&prefix) {
        return Err(NOT_IN_KIND);
    }
    let short = offset % BLOCK;
    let rest = ranges.iter().find_map(|range| range.dialled(short)).ok_or(NOT_IN_KIND)?;
    Ok(prefix * 100_000 + rest)
}

pub fn individual(number: u32) -> Result<IndividualAddress, u8> {
    address(&INDIVIDUALS, number).map(IndividualAddress)
}

pub fn group(number: u32) -> Result<GroupAddress, u8> {
    address(&GROUPS, number).map(GroupAddress)
}

pub fn dialled_individual(address: IndividualAddress) -> Result<u32, u8> {
    dialled(&INDIVIDUALS, address.0)
}

pub fn dialled_group(address: GroupAddress) -> Result<u32, u8> {
    dialled(&GROUPS, address.0)
}

const STEP: u32 = 125;
const SIMPLEX: u32 = 3_580_125;
const PAIRED: u32 = 3_510_125;
const PAIR_DISTANCE: u32 = 100_000;

/// Transmit frequency in units of 100 Hz.
pub fn transmit(channel: u32) -> Result<u32, u8> {
    match channel {
        1..=240 => Ok(SIMPLEX + STEP * (channel - 1)),
        241..=640 => Ok(PAIRED + STEP * (channel - 241)),
        _ => Err(NO_SUCH_CHANNEL),
    }
}

/// Receive frequency in units of 100 Hz.
pub fn receive(channel: u32) -> Result<u32, u8> {
    let distance = if channel > 240 { PAIR_DISTANCE } else { 0 };
    transmit(channel).map(|value| value + distance)
}

/// The channel whose transmit value this is: one of two that could be, asked for its value so as not to repeat the rule.
pub fn channel(value: u32) -> Result<u32, u8> {
    let could_be = [(PAIRED, 241), (SIMPLEX, 1)]
        .into_iter()
        .filter_map(|(lowest, first)| value.checked_sub(lowest).map(|above| first + above / STEP));
    could_be.into_iter().find(|&channel| transmit(channel) == Ok(value)).ok_or(NO_SUCH_CHANNEL)
}
