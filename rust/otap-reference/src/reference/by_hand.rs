//! What the cases worked by hand share.

use super::commit::{commit, judge, REPLY_ROOM};
use super::joining::{join, Refused};
use super::limits::{Limits, HANDHELD};
use super::message::request;
use super::queries::query;
use super::reports::{report, REPORT_HEAD};
use super::screen::{row_part, Row, Shown, SCRATCH_ROOM};
use super::tables::Set;

pub fn bytes(hex: &str) -> Vec<u8> {
    hex.split_whitespace()
        .map(|word| u8::from_str_radix(word, 16).expect("two hex digits"))
        .collect()
}

/// Number and failed ID of a message, judged and then committed: both say the same, and write the same reply.
pub fn number(set: &mut Set, message: &[u8]) -> (u8, u8) {
    let (mut forecast, mut reply) = ([0; REPLY_ROOM], [0; REPLY_ROOM]);
    let judged = judge(message, set, &mut forecast);
    let answer = commit(message, set, &mut reply);
    assert_eq!((judged, forecast), (answer, reply), "{message:02X?}");
    (answer.number, answer.failed)
}

/// A request under 0111 with these settings in hex.
pub fn request_of(settings: &[&str]) -> Vec<u8> {
    request(&settings.iter().map(|setting| bytes(setting)).collect::<Vec<_>>())
}

/// Number and failed ID of such a request.
pub fn number_of(set: &mut Set, settings: &[&str]) -> (u8, u8) {
    number(set, &request_of(settings))
}

/// A fresh hand-held after one such request, which must be taken.
pub fn taken(settings: &[&str]) -> Set {
    taken_by(HANDHELD, settings)
}

/// The same of a set with these limits.
pub fn taken_by(limits: Limits, settings: &[&str]) -> Set {
    let mut set = Set::fresh(limits);
    assert_eq!(number_of(&mut set, settings), (0, 0), "{settings:?}");
    set
}

pub fn shown(set: &Set, row: Row) -> Shown {
    row_part(row, true, set, &mut [0; SCRATCH_ROOM])
}

/// A text's own part of the store.
pub fn stored(text: &str) -> Shown {
    Shown::Stored(text.encode_utf16().collect())
}

/// A number in the scratch.
pub fn scratch(number: &str) -> Shown {
    Shown::Scratch(number.encode_utf16().collect())
}

/// The first message of the report to these types, asked by a call.
pub fn reported(set: &Set, types: &str) -> Vec<u8> {
    let mut buffer = vec![0xEE; set.limits.message];
    let told = report(&query(&bytes(types)), 1, true, set, &mut buffer).expect("a good query");
    buffer[..told.length].to_vec()
}

/// Its count of parameters and their bytes.
pub fn parameters(set: &Set, types: &str) -> (u8, Vec<u8>) {
    let message = reported(set, types);
    (message[REPORT_HEAD - 1], message[REPORT_HEAD..].to_vec())
}

/// A report of one message with so many parameters, in hex.
pub fn report_of(count: u8, parameters: &str) -> Vec<u8> {
    let parameters = bytes(parameters);
    let length = (parameters.len() + 6) as u8;
    [vec![2, 2, 0, length, 8, 7, 0x0B, 1, 1, count], parameters].concat()
}

/// Two requests joined for a hand-held by a call: what it wrote over other bytes, which must stay behind that, or wherever it is refused.
pub fn joined(first: &[u8], second: &[u8]) -> Result<Vec<u8>, Refused> {
    let mut buffer = [0xEE; HANDHELD.message + 10];
    let answer = join(first, second, HANDHELD, &mut buffer);
    let (written, rest) = buffer.split_at(answer.unwrap_or(0));
    assert!(rest.iter().all(|&byte| byte == 0xEE), "{first:02X?} {second:02X?}");
    answer.map(|_| written.to_vec())
}

/// Settings that are in range and take just so many bytes, at least 9.
pub fn settings_of_size(size: usize) -> Vec<Vec<u8>> {
    let mut settings = Vec::new();
    let mut left = size;
    while left > 700 {
        settings.push(empty_status_texts(200));
        left -= 605;
    }
    // A status text takes three bytes: what is over goes to a key, or to no contacts.
    match left % 3 {
        0 => settings.push(bytes("CB 00 03 80")),
        1 => settings.push(bytes("C9 00 04 40 00")),
        _ => {}
    }
    let taken: usize = settings.iter().map(Vec::len).sum();
    settings.push(empty_status_texts((size - taken - 5) / 3));
    settings
}

/// Code 33 again and again.
fn empty_status_texts(count: usize) -> Vec<u8> {
    let length = (count * 3 + 4) as u16;
    let head = [&[0xD0], &length.to_be_bytes()[..], &[0x40, count as u8]].concat();
    [head, [0x21, 0, 0].repeat(count)].concat()
}

/// One entry of every table that is asked for, and a kept hash.
pub const EVERY_TABLE: [&str; 10] = [
    "C8 00 0C 54 80 01 10 00 01 00 41 00 00",
    "C9 00 09 5C 01 10 03 E9 00 00",
    "CA 00 0B 42 01 23 45 FF 00 41 00 00",
    "CB 00 06 68 10 00 01",
    "CC 00 08 41 05 00 41 00 00",
    "CD 00 05 00 E4 C0",
    "CE 00 06 40 01 0F 1F",
    "CF 00 05 00 18 A0",
    "D0 00 09 40 01 21 00 42 00 00",
    "FF 00 07 01 01 02 03 04",
];

/// What it reports of these, by the byte asked.
pub const EVERY_PARAMETER: [(u8, &str); 10] = [
    (0xC8, "88 00 10 00 01 05 20 00 41 00 00"),
    (0xC9, "89 00 10 03 E9 07 00 00"),
    (0xCA, "8A 00 80 00 23 45 FF 00 41 00 00"),
    (0xCB, "8B 00 A8 10 00 01"),
    (0xCC, "8C 00 14 00 41 00 00"),
    (0xCD, "8D 00 00 E4 C0"),
    (0xCE, "8E 00 0F 10 00"),
    (0xCF, "8F 00 00 18 A0"),
    (0xD0, "90 00 21 00 00 42 00 00"),
    (0xFF, "BF 01 01 01 02 03 04"),
];
