//! The answers of `values`, of the report call, of the office's reader, of the join call and of the calls for short updates in 64 bits or fewer, as the C
//! functions give them.

use super::numbers::TAKEN;
use super::settings::{EmergencyKey, HomeNumbers, SystemCode};
use super::values::Entry;

#[cfg(test)]
mod join_tests;
mod joining;
#[cfg(test)]
mod report_tests;
mod reports;
#[cfg(test)]
mod tests;
#[cfg(test)]
mod update_tests;
mod updating;

pub use joining::packed_join;
pub use reports::{packed_read_report, packed_report, packed_report_entry, packed_report_places};
pub use updating::{packed_check, packed_proposal};

/// A value and its lowest bit.
type Field = (u32, u32);

/// The number in bits 0 to 7 and the fields behind it; a refusal has its number alone.
fn packed<T>(answer: Result<T, u8>, fields: impl FnOnce(T) -> Vec<Field>) -> u64 {
    match answer {
        Ok(value) => numbered(TAKEN, fields(value)),
        Err(number) => numbered(number, Vec::new()),
    }
}

fn numbered(number: u8, fields: Vec<Field>) -> u64 {
    fields.into_iter().fold(number.into(), |bits, (value, place)| bits | u64::from(value) << place)
}

/// Address 8 to 31, IDtype 32, encryption 33, emergency 34, priority 35 and 36, attribute 37 and 38, broadcast 39, OVCM 40; 0 where the kind has none.
pub fn packed_entry(answer: Result<Entry, u8>) -> u64 {
    packed(answer, |entry| match entry {
        Entry::Group { address, flags } => vec![
            (address.0, 8),
            (flags.encryption.into(), 33),
            (flags.emergency.into(), 34),
            (flags.priority.into(), 35),
            (flags.attribute.into(), 37),
            (flags.broadcast.into(), 39),
            (flags.ovcm.into(), 40),
        ],
        Entry::Individual { address, flags } => vec![
            (address.0, 8),
            (flags.encryption.into(), 33),
            (flags.emergency.into(), 34),
            (flags.priority.into(), 35),
        ],
        Entry::Line { flags } => vec![
            (flags.pabx.into(), 32),
            (flags.encryption.into(), 33),
            (flags.emergency.into(), 34),
            (flags.priority.into(), 35),
        ],
    })
}

/// How many 8 to 15.
pub fn packed_digits(answer: Result<usize, u8>) -> u64 {
    packed(answer, |count| vec![(count as u32, 8)])
}

/// The channel 8 to 19.
pub fn packed_channel(answer: Result<u16, u8>) -> u64 {
    packed(answer, |channel| vec![(channel.into(), 8)])
}

/// Address 8 to 31, 0 with current; current 32, group 33, voice 34, status 35, siren 36.
pub fn packed_emergency_key(answer: Result<EmergencyKey, u8>) -> u64 {
    packed(answer, |key| {
        vec![
            (key.address.unwrap_or(0), 8),
            (key.address.is_none().into(), 32),
            (key.group.into(), 33),
            (key.voice.into(), 34),
            (key.status.into(), 35),
            (key.siren.into(), 36),
        ]
    })
}

/// NZI 8 to 16, NP 17 to 26.
pub fn packed_home_numbers(answer: Result<HomeNumbers, u8>) -> u64 {
    packed(answer, |home| vec![(home.nzi.into(), 8), (home.np.into(), 17)])
}

/// LAI 8 to 19, LA 20 to 23, roaming 24 and 25, PAR 26.
pub fn packed_system_code(answer: Result<SystemCode, u8>) -> u64 {
    packed(answer, |code| {
        vec![
            (code.lai.into(), 8),
            (code.la.into(), 20),
            (code.roaming.into(), 24),
            (code.par.into(), 26),
        ]
    })
}
