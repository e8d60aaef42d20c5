//! The stored test of the program `shift`: its input is what the binary `shift` writes, and its output what the reference shows of it.

use otap_reference::records::{Record, Records};
use otap_reference::reference::callers::line_of;
use otap_reference::reference::commit::{judge_and_commit, Answer, REPLY_ROOM};
use otap_reference::reference::limits::HANDHELD;
use otap_reference::reference::screen::{row_part, Row, Shown, SCRATCH_ROOM};
use otap_reference::reference::tables::Set;
use otap_reference::reference::values::{entry, entry_digits, Entry, DIGITS_ROOM};
use std::fs::read;
use std::process::Command;

fn stored(part: &str) -> Vec<u8> {
    read(format!("{}/../../crates/shift/{part}", env!("CARGO_MANIFEST_DIR")))
        .expect("the program has a stored test")
}

/// A row as the screen shows it; a surrogate that is in no pair is U+FFFD.
fn shown(row: Row, set: &Set) -> Option<String> {
    match row_part(row, true, set, &mut [0; SCRATCH_ROOM]) {
        Shown::Nothing => None,
        Shown::Stored(units) | Shown::Scratch(units) => Some(String::from_utf16_lossy(&units)),
    }
}

/// What stands behind a row, in parentheses: the address, or the IDtype and the digits; nothing for a text.
fn behind(table: u32, place: u32, set: &Set) -> String {
    match entry(table, place, true, set) {
        Ok(Entry::Group { address, .. }) => format!(" ({:06X})", address.0),
        Ok(Entry::Individual { address, .. }) => format!(" ({:06X})", address.0),
        Ok(Entry::Line { flags }) => {
            let id_type = if flags.pabx { "PABX" } else { "PSTN" };
            format!(" ({id_type} {})", digits(table, place, set))
        }
        Err(_) => String::new(),
    }
}

fn digits(table: u32, place: u32, set: &Set) -> String {
    let mut buffer = [0; DIGITS_ROOM];
    let count = entry_digits(table, place, true, set, &mut buffer).expect("a line has digits");
    buffer[..count].iter().map(u8::to_string).collect()
}

/// A line that begins with a label, in a column as wide as the longest and two spaces.
fn labelled(label: &str, shown: &str) -> String {
    format!("  {label:<21}{shown}\n")
}

/// The row of a table at a place.
type RowAt = fn(usize) -> Row;

/// A line for each table that has rows; the tables are in the order of their numbers, from 1.
fn rows(set: &Set) -> String {
    let tables: [(&str, RowAt); 8] = [
        ("lines", Row::Line),
        ("quick texts", Row::Quick),
        ("status texts", Row::Status),
        ("groups", Row::Group),
        ("individuals", Row::Individual),
        ("group contacts", Row::GroupContact),
        ("individual contacts", Row::IndividualContact),
        ("line slots", Row::LineSlot),
    ];
    let mut out = String::new();
    for (table, (name, row)) in (1..).zip(tables) {
        let there = |place: u32| {
            let text = shown(row(place as usize), set)?;
            Some(format!("{place} {text}{}", behind(table, place, set)))
        };
        let shown: Vec<String> = (0..256).filter_map(there).collect();
        if !shown.is_empty() {
            out.push_str(&labelled(name, &shown.join(", ")));
        }
    }
    if out.is_empty() {
        "  no rows\n".to_string()
    } else {
        out
    }
}

/// How much of the room for lines and channels is taken.
fn room(set: &Set) -> String {
    let ((lines, channels), most) = (set.counts(), set.limits);
    labelled(
        "room",
        &format!("lines {lines} of {}, channels {channels} of {}", most.lines, most.channels),
    )
}

/// A call from PSTN 2346: the row that has the number and what the screen shows for it, if there is one.
fn caller(set: &Set) -> String {
    let row = line_of(0, &[2, 3, 4, 6], true, set).expect("a store, and four digits");
    let name = |row: u32| shown(Row::Line(row as usize), set).expect("the row found is there");
    let told = row.map_or("no row".to_string(), |row| format!("{row} {}", name(row)));
    labelled("call from 2346", &told)
}

/// What stands at the end of each part of the output: the room and the call.
fn asked(set: &Set) -> String {
    room(set) + &caller(set)
}

fn words(answer: &Answer, query: bool) -> &'static str {
    match answer.number {
        0 if query => "the hash matches",
        0 => "taken",
        4 => "refused: bad field",
        14 => "refused: not a request",
        other => panic!("the stored shift has no {other}"),
    }
}

fn message_lines(answer: &Answer, query: bool, reply: &[u8]) -> String {
    let mut out = format!("{}, {}", answer.number, words(answer, query));
    if answer.failed != 0 {
        out.push_str(&format!("; failed ID {}", answer.failed));
    }
    if answer.length == 0 {
        return out + "; no reply; no restart\n";
    }
    let send = if answer.send { "send" } else { "keep" };
    let restart = if answer.reboot { "restart" } else { "no restart" };
    let hex: Vec<String> =
        reply[..answer.length].iter().map(|byte| format!("{byte:02X}")).collect();
    out + &format!("; {send} the reply; {restart}\n{}", labelled("reply", &hex.join(" ")))
}

fn shift_prints(input: &[u8]) -> String {
    let mut set = Set::fresh(HANDHELD);
    let mut out = format!("A fresh store\n{}{}", rows(&set), asked(&set));
    for (place, record) in Records::new(input).enumerate() {
        let Record::Whole { message, .. } = record else {
            panic!("the stored shift has whole records")
        };
        let mut reply = [0; REPLY_ROOM];
        let answer = judge_and_commit(message, &mut set, &mut reply);
        let told = message_lines(&answer, message[6] & 7 == 5, &reply);
        out.push_str(&format!("\nMessage {}: {told}{}{}", place + 1, rows(&set), asked(&set)));
    }
    out
}

#[test]
fn the_input_is_what_the_binary_writes() {
    let run = Command::new(env!("CARGO_BIN_EXE_shift")).output().expect("the binary runs");
    assert!(run.stdout == stored("stdin"));
}

#[test]
fn the_output_is_what_the_reference_shows() {
    assert_eq!(shift_prints(&stored("stdin")), String::from_utf8_lossy(&stored("stdout")));
}
