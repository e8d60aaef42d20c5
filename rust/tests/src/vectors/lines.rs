//! The lines of single calls.

use super::fields;
use crate::pair::reference_row;
use otap_reference::inputs::values::Value;
use otap_reference::reference::commit::Answer;
use otap_reference::reference::joining::Refused;
use otap_reference::reference::plan::{self, GroupAddress, IndividualAddress};
use otap_reference::reference::report_reading::ReadReport;
use otap_reference::reference::reports::items::Item;
use otap_reference::reference::reports::REPORT_HEAD;
use otap_reference::reference::screen::{row_part, Shown, SCRATCH_ROOM};
use otap_reference::reference::tables::Set;
use otap_reference::reference::values::{self, DIGITS_ROOM};

/// The tables of the screen, and what lines call them.
pub const TABLES: [(u32, &str); 8] = [
    (1, "line"),
    (2, "quick"),
    (3, "status"),
    (4, "group"),
    (5, "individual"),
    (6, "group-contact"),
    (7, "individual-contact"),
    (8, "line-slot"),
];

pub fn hex(bytes: &[u8]) -> String {
    if bytes.is_empty() {
        return "-".to_string();
    }
    bytes.iter().map(|byte| format!("{byte:02x}")).collect()
}

pub fn answer_line(name: &str, message: &[u8], answer: &Answer, reply: &[u8]) -> String {
    let Answer { number, failed, send, reboot, length } = *answer;
    let (send, reboot) = (u8::from(send), u8::from(reboot));
    format!("{name} {} {number} {failed} {send} {reboot} {}", hex(message), hex(&reply[..length]))
}

/// Where a row's part stands, and its bytes.
pub fn row_line(table: u32, row: u32, set: &Set) -> (&'static str, String) {
    let row = reference_row(table, row).expect("one of the eight tables");
    let bytes =
        |units: &[u16]| units.iter().flat_map(|unit| unit.to_be_bytes()).collect::<Vec<u8>>();
    match row_part(row, true, set, &mut [0; SCRATCH_ROOM]) {
        Shown::Nothing => ("-", hex(&[])),
        Shown::Stored(units) => ("store", hex(&bytes(&units))),
        Shown::Scratch(units) => ("scratch", hex(&bytes(&units))),
    }
}

/// A value by its fields, all 0 where it is refused. A buffer for digits has its least room here.
pub fn value_line(value: Value, set: &Set) -> String {
    match value {
        Value::Entry { table, index } => {
            format!(
                "entry {table} {index} {}",
                told(values::entry(table, index, true, set), fields::entry)
            )
        }
        Value::EntryDigits { table, index, .. } => {
            let mut digits = [0; DIGITS_ROOM];
            let count = values::entry_digits(table, index, true, set, &mut digits);
            format!(
                "digits {table} {index} {} {}",
                count.err().unwrap_or(0),
                hex(&digits[..count.unwrap_or(0)])
            )
        }
        Value::Channel { position } => {
            let channel = values::channel(position, true, set);
            format!("channel {position} {} {}", channel.err().unwrap_or(0), channel.unwrap_or(0))
        }
        Value::EmergencyKey => {
            format!("fixed emergencyKey {}", told(values::emergency_key(true, set), fields::key))
        }
        Value::HomeNumbers => {
            format!("fixed homeNumbers {}", told(values::home_numbers(true, set), fields::home))
        }
        Value::SystemCode => {
            format!("fixed systemCode {}", told(values::system_code(true, set), fields::system))
        }
    }
}

fn told<T>(answer: Result<T, u8>, fields: impl Fn(T) -> String) -> String {
    answer.map_or_else(|number| format!("{number} -"), |value| format!("0 {}", fields(value)))
}

/// What a message of a report is read as, then a line for each of its first parameters.
pub fn item_lines(message: &[u8], number: u8, read: &ReadReport) -> Vec<String> {
    let unknown = read.entries.iter().find_map(|entry| match entry.item {
        Item::Unknown(byte) => Some(byte),
        _ => None,
    });
    let known = read.entries.len() - usize::from(unknown.is_some());
    let last = unknown.map_or("-".to_string(), |byte| byte.to_string());
    let mut lines = vec![format!(
        "read {} {number} {} {} {known} {last}",
        hex(message),
        read.total,
        read.index
    )];
    let mut at = REPORT_HEAD;
    for (place, entry) in read.entries.iter().enumerate().take(4) {
        lines.push(format!(
            "item {place} {at} {} {}",
            entry.places.behind,
            fields::item(&entry.item)
        ));
        at = entry.places.behind;
    }
    lines
}

pub fn joined_line(first: &[u8], second: &[u8], joined: Result<Vec<u8>, Refused>) -> String {
    let fault = joined
        .as_ref()
        .err()
        .map_or((0, 0, 0), |refused| (refused.number, refused.failed, u8::from(refused.second)));
    let message = hex(&joined.unwrap_or_default());
    format!("join {} {} {} {} {} {message}", hex(first), hex(second), fault.0, fault.1, fault.2)
}

/// Each conversion in and outside its plan; the archive is held to every value of them elsewhere.
pub fn convert_lines() -> Vec<String> {
    let line = |name: &str, value: u32, answer: Result<u32, u8>| {
        format!("convert {name} {value} {} {}", answer.err().unwrap_or(0), answer.unwrap_or(0))
    };
    let dialled = [0, 20_000_001, 32_806_001, 51_120_200, 99_999_999, u32::MAX];
    let addresses = [0, 0x10_0001, 0x10_0002, 0xFF_7DC8, 0xFF_FFFF, u32::MAX];
    let channels = [0, 1, 240, 241, 640, 641, u32::MAX];
    let frequencies = [0, 3_510_125, 3_560_000, 3_560_001, u32::MAX];
    let group = |value| plan::group(value).map(|address| address.0);
    let individual = |value| plan::individual(value).map(|address| address.0);
    let mut lines = vec![];
    lines.extend(dialled.map(|value| line("groupOfDialled", value, group(value))));
    lines.extend(dialled.map(|value| line("individualOfDialled", value, individual(value))));
    lines.extend(
        addresses
            .map(|value| line("dialledOfGroup", value, plan::dialled_group(GroupAddress(value)))),
    );
    let of_individual = |value| plan::dialled_individual(IndividualAddress(value));
    lines.extend(addresses.map(|value| line("dialledOfIndividual", value, of_individual(value))));
    lines.extend(channels.map(|value| line("transmit", value, plan::transmit(value))));
    lines.extend(channels.map(|value| line("receive", value, plan::receive(value))));
    lines.extend(frequencies.map(|value| line("channelOfTransmit", value, plan::channel(value))));
    lines
}
