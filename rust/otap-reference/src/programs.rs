//! What the programs must write for an input: `take` and `put`, which judge each message and commit it to a hand-held where that comes to 0, and `office`.

pub mod office;

use crate::records::{push_record, Record, Records};
use crate::reference::commit::{judge_and_commit, REPLY_ROOM};
use crate::reference::export::{part_bytes, PARTS};
use crate::reference::limits::HANDHELD;
use crate::reference::tables::Set;
use std::fmt::Write;

/// A line for each record: kind, number, failed ID; or `cut`.
pub fn take_prints(input: &[u8]) -> String {
    let mut out = String::new();
    let mut set = Set::fresh(HANDHELD);
    for record in Records::new(input) {
        match record {
            Record::Cut => out.push_str("cut\n"),
            Record::Whole { kind, message } => {
                let answer = judge_and_commit(message, &mut set, &mut [0; REPLY_ROOM]);
                writeln!(out, "{kind} {} {}", answer.number, answer.failed)
                    .expect("a string takes every line");
            }
        }
    }
    out
}

/// The ten records of the set that took the input.
pub fn put_writes(input: &[u8]) -> Vec<u8> {
    let mut set = Set::fresh(HANDHELD);
    for record in Records::new(input) {
        if let Record::Whole { message, .. } = record {
            judge_and_commit(message, &mut set, &mut [0; REPLY_ROOM]);
        }
    }
    let mut out = Vec::new();
    for part in 1..=PARTS {
        let message = part_bytes(part, &set).expect("the part is one of the ten");
        push_record(&mut out, u16::from(part), &message);
    }
    out
}
