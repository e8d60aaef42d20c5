//! The four calls of queries and reports, as docs/REPORTS.md packs them.

use super::{packed, Field};
use crate::reference::message::Hash;
use crate::reference::report_reading::{Entry, ReadReport};
use crate::reference::reports::items::Item;
use crate::reference::reports::Told;
use crate::reference::settings::{
    EmergencyKey, GroupFlags, HomeNumbers, IndividualFlags, LineFlags, SystemCode,
};

/// Set where the type is unknown.
const UNKNOWN: Field = (1, 28);

/// Total 8 to 15, length 16 to 31.
pub fn packed_report(answer: Told) -> u64 {
    packed(answer, |report| vec![(report.total.into(), 8), (report.length as u32, 16)])
}

/// Total 8 to 15, index 16 to 23, how many parameters 24 to 31.
pub fn packed_read_report(answer: Result<&ReadReport, u8>) -> u64 {
    packed(answer, |report| {
        let parameters = report.entries.len() as u32;
        vec![(report.total.into(), 8), (report.index.into(), 16), (parameters, 24)]
    })
}

/// The type asked 0 to 7, flags 8 to 15, index or code 16 to 27, unknown 28, value 32 to 55; 0 where no parameter starts.
pub fn packed_report_entry(entry: Option<&Entry>) -> u64 {
    let Some(Entry { item, .. }) = entry else { return 0 };
    let fields = match item {
        Item::GroupContact { index, slot } => {
            said(group_flags(&slot.flags()), (*index).into(), slot.address.0)
        }
        Item::IndividualContact { index, slot } => {
            said(individual_flags(&slot.flags()), (*index).into(), slot.address.0)
        }
        Item::LineContact { index, line } => said(line_flags(&line.flags), (*index).into(), 0),
        Item::EmergencyKey(key) => said(key_flags(key), 0, key.address.unwrap_or(0)),
        Item::QuickText(entry) | Item::StatusText { entry, .. } => said(0, entry.key.into(), 0),
        Item::HomeNumbers(home) => said(0, 0, home_value(home)),
        Item::Channel { index, channel } => said(0, (*index).into(), (*channel).into()),
        Item::SystemCode(code) => said(0, 0, system_value(code)),
        Item::KeptHash(_) => Vec::new(),
        Item::Unknown(_) => vec![UNKNOWN],
    };
    // The type stands where the others have their number.
    packed(Ok(()), |()| [vec![(item.asked().into(), 0)], fields].concat())
}

/// The byte behind 0 to 15, text 16 to 31, its bytes 32 to 39, number or hash value 40 to 55, how many digits or HashCode 56 to 63.
pub fn packed_report_places(entry: Option<&Entry>) -> u64 {
    // A place that 16 bits don't hold is in no message that was read.
    let Some(Entry { item, places }) = entry.filter(|entry| entry.places.behind < 1 << 16) else {
        return 0;
    };
    let text = places.text.clone().unwrap_or(0..0);
    let number = match item {
        Item::LineContact { line, .. } => line.digits.len() as u32,
        Item::KeptHash(hash) if *hash != Hash::Nothing => hash.code().into(),
        _ => 0,
    };
    packed(Ok(()), |()| {
        vec![
            (places.behind as u32, 0),
            (text.start as u32, 16),
            (text.len() as u32, 32),
            (places.number.unwrap_or(0) as u32, 40),
            (number, 56),
        ]
    })
}

fn said(flags: u32, index: u32, value: u32) -> Vec<Field> {
    vec![(flags, 8), (index, 16), (value, 32)]
}

fn group_flags(flags: &GroupFlags) -> u32 {
    u32::from(flags.attribute) * 64
        + u32::from(flags.broadcast) * 32
        + u32::from(flags.encryption) * 16
        + u32::from(flags.ovcm) * 8
        + u32::from(flags.emergency) * 4
        + u32::from(flags.priority)
}

fn individual_flags(flags: &IndividualFlags) -> u32 {
    u32::from(flags.encryption) * 8 + u32::from(flags.emergency) * 4 + u32::from(flags.priority)
}

fn line_flags(flags: &LineFlags) -> u32 {
    let LineFlags { encryption, emergency, priority, pabx } = *flags;
    u32::from(pabx) * 16 + individual_flags(&IndividualFlags { encryption, emergency, priority })
}

fn key_flags(key: &EmergencyKey) -> u32 {
    let flags = [key.address.is_none(), key.group, key.voice, key.status, key.siren];
    flags.iter().fold(0, |flags, &flag| flags << 1 | u32::from(flag))
}

/// NZI 9, NP 10, 0 in 5 bits.
fn home_value(home: &HomeNumbers) -> u32 {
    u32::from(home.nzi) << 15 | u32::from(home.np) << 5
}

/// LAI 12, LA 4, roaming 2, PAR 1, 0 in 5 bits.
fn system_value(code: &SystemCode) -> u32 {
    u32::from(code.lai) << 12
        | u32::from(code.la) << 8
        | u32::from(code.roaming) << 6
        | u32::from(code.par) << 5
}
