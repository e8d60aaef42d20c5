//! The stored tests of the verified programs are what the reference says: what they write is compared with them by the gate.

use otap_reference::programs::office::office_prints;
use otap_reference::programs::{put_writes, take_prints};
use otap_reference::records::{Record, Records};
use otap_reference::reference::commit::{judge_and_commit, REPLY_ROOM};
use otap_reference::reference::limits::{Texts, HANDHELD};
use otap_reference::reference::tables::{Set, MOST_CONTACTS};
use std::fs::read;

fn stored(program: &str, part: &str) -> Vec<u8> {
    read(format!("{}/../../crates/{program}/{part}", env!("CARGO_MANIFEST_DIR")))
        .expect("the program has a stored test")
}

#[test]
fn take_prints_what_is_stored() {
    assert_eq!(take_prints(&stored("take", "stdin")).as_bytes(), stored("take", "stdout"));
}

#[test]
fn put_writes_what_is_stored() {
    assert!(put_writes(&stored("put", "stdin")) == stored("put", "stdout"));
}

#[test]
fn office_prints_what_is_stored() {
    assert_eq!(office_prints(&stored("office", "stdin")).as_bytes(), stored("office", "stdout"));
}

/// The stored input of `put` fills every table with a limit, and leaves no byte of the area.
#[test]
fn put_is_tried_with_a_full_set() {
    let mut set = Set::fresh(HANDHELD);
    for record in Records::new(&stored("put", "stdin")) {
        let Record::Whole { message, .. } = record else { panic!("no record is cut") };
        judge_and_commit(message, &mut set, &mut [0; REPLY_ROOM]);
    }
    let tables = &set.tables;
    assert_eq!((set.free(), Texts::Shared(tables.text_bytes())), ((0, 0), HANDHELD.texts));
    assert_eq!([tables.group_contacts.len(), tables.individual_contacts.len()], [MOST_CONTACTS; 2]);
    assert!(tables.quick_texts.iter().chain(&tables.status_texts).all(Option::is_some));
    assert!(tables.groups.iter().all(Option::is_some));
    assert!(tables.individuals.iter().all(Option::is_some));
}

/// `put | take` prints ten lines of 0.
#[test]
fn what_put_writes_is_taken() {
    let lines: Vec<String> = (1..=10).map(|part| format!("{part} 0 0\n")).collect();
    assert_eq!(take_prints(&stored("put", "stdout")), lines.concat());
}
