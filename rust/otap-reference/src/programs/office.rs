//! What the office's program `office` must write: a line for each message of a report, and one for each of its parameters.

use crate::records::{Record, Records};
use crate::reference::limits::HANDHELD;
use crate::reference::message::Hash;
use crate::reference::report_reading::read;
use crate::reference::reports::items::Item;
use crate::reference::settings::{EmergencyKey, GroupSlot, IndividualSlot, Line};

#[cfg(test)]
mod tests;

/// The lines; a record cut short is a line of its own, the last.
pub fn office_prints(input: &[u8]) -> String {
    let mut out = String::new();
    for record in Records::new(input) {
        match record {
            Record::Whole { message, .. } => out.push_str(&lines(message)),
            _ => out.push_str("cut\n"),
        }
    }
    out
}

/// A record over 4,096 bytes is refused with 12 as its message is.
fn lines(message: &[u8]) -> String {
    let report = match read(message, HANDHELD) {
        Ok(report) => report,
        Err(number) => return format!("refused {number}\n"),
    };
    let (index, total, entries) = (report.index, report.total, &report.entries);
    let mut out = format!("message {index} of {total}, {} parameters\n", entries.len());
    entries.iter().for_each(|entry| out.push_str(&format!("  {}\n", shown(&entry.item))));
    out
}

fn shown(item: &Item) -> String {
    match item {
        Item::GroupContact { index, slot } => format!("group contact {index}: {}", group(slot)),
        Item::IndividualContact { index, slot } => {
            format!("individual contact {index}: {}", individual(slot))
        }
        Item::LineContact { index, line: held } => format!("line contact {index}: {}", line(held)),
        Item::EmergencyKey(held) => format!("emergency key: {}", key(held)),
        Item::QuickText(entry) => format!("quick text {}: {}", entry.key, text(&entry.text)),
        Item::HomeNumbers(home) => format!("home numbers: NZI {} NP {}", home.nzi, home.np),
        Item::Channel { index, channel } => format!("scan channel {index}: {channel}"),
        Item::SystemCode(code) => format!(
            "system code: LAI {} LA {} roaming {} PAR {}",
            code.lai,
            code.la,
            code.roaming,
            u8::from(code.par)
        ),
        Item::StatusText { entry, .. } => {
            format!("status text {}: {}", entry.key, text(&entry.text))
        }
        Item::KeptHash(Hash::Nothing) => "kept hash: none".to_string(),
        Item::KeptHash(hash) => {
            format!("kept hash: code {} value {}", hash.code(), hex(hash.value()))
        }
        Item::Unknown(byte) => format!("unknown type {byte:02X}"),
    }
}

fn group(slot: &GroupSlot) -> String {
    format!(
        "{:06X} {} attribute {} broadcast {} encryption {} OVCM {} emergency {} priority {}",
        slot.address.0,
        text(&slot.text),
        slot.attribute,
        u8::from(slot.broadcast),
        u8::from(slot.encryption),
        u8::from(slot.ovcm),
        u8::from(slot.emergency),
        slot.priority
    )
}

fn individual(slot: &IndividualSlot) -> String {
    let flags = flags(slot.encryption, slot.emergency, slot.priority);
    format!("{:06X} {} {flags}", slot.address.0, text(&slot.text))
}

fn line(line: &Line) -> String {
    let id_type = if line.flags.pabx { "PABX" } else { "PSTN" };
    let digits: String = line.digits.iter().map(u8::to_string).collect();
    let flags = flags(line.flags.encryption, line.flags.emergency, line.flags.priority);
    format!("{id_type} {digits} {} {flags}", text(&line.text))
}

fn flags(encryption: bool, emergency: bool, priority: u8) -> String {
    let (encryption, emergency) = (u8::from(encryption), u8::from(emergency));
    format!("encryption {encryption} emergency {emergency} priority {priority}")
}

fn key(key: &EmergencyKey) -> String {
    let target = match key.address {
        None => format!("current place group {}", u8::from(key.group)),
        Some(address) if key.group => format!("group {address:06X}"),
        Some(address) => format!("individual {address:06X}"),
    };
    let (voice, status, siren) = (u8::from(key.voice), u8::from(key.status), u8::from(key.siren));
    format!("{target} voice {voice} status {status} siren {siren}")
}

/// In quotes; a surrogate that is in no pair is U+FFFD.
fn text(units: &[u16]) -> String {
    format!("\"{}\"", String::from_utf16_lossy(units))
}

fn hex(bytes: &[u8]) -> String {
    bytes.iter().map(|byte| format!("{byte:02X}")).collect()
}
