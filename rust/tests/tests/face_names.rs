//! Every outcome and refusal by its name and its number in document 01, each from a call made by hand.

use otap::{NotJoined, Outcome, Part, Refusal, Set, Table};
use otap::{MOST_DIGITS, REPLY_ROOM, SCRATCH_ROOM};
use otap_reference::reference::settings::Operation;
use otap_tests::for_both_sets;
use otap_tests::pair::commit_judged;
use otap_tests::sets::Tried;
use otap_tests::{channels, request};

for_both_sets!(
    outcomes_with_a_reply,
    outcomes_without_a_reply,
    refusals_of_stores_exports_and_rows,
    refusals_of_reports,
    refusals_of_joins,
    refusals_of_updates,
    tables_and_parts,
);

/// Home numbers NZI 15, NP 806.
const HOME: [u8; 14] = [2, 2, 0, 10, 8, 7, 8, 1, 0xCD, 0, 5, 0x07, 0xE4, 0xC0];

/// `HOME` with one byte changed.
fn changed(place: usize, byte: u8) -> [u8; 14] {
    let mut message = HOME;
    message[place] = byte;
    message
}

/// A replace of the scan channels by one more than there is room for.
fn too_many_channels<K: Tried>() -> Vec<u8> {
    request(&[channels(Operation::Replace, &vec![241; K::MOST_CHANNELS + 1])])
}

fn outcome<K: Tried>(message: &[u8]) -> (Outcome, u8) {
    let mut bytes = vec![0; K::STORE_SIZE];
    let mut store = Set::<K>::start(&mut bytes).expect("the size is right");
    let mut reply = [0; REPLY_ROOM];
    let answer = commit_judged(&mut store, message, &mut reply);
    assert_eq!(answer.number(), answer.outcome.number());
    (answer.outcome, answer.number())
}

fn outcomes_with_a_reply<K: Tried>() {
    assert_eq!(outcome::<K>(&HOME), (Outcome::Taken, 0));
    assert_eq!(outcome::<K>(&changed(6, 0x10)), (Outcome::WrongVersion, 1));
    assert_eq!(outcome::<K>(&too_many_channels::<K>()), (Outcome::NoRoom, 2));
    assert_eq!(outcome::<K>(&changed(8, 0xD4)), (Outcome::UnknownType, 3));
    assert_eq!(outcome::<K>(&changed(13, 0xE0)), (Outcome::BadField, 4));
    assert_eq!(outcome::<K>(&[2, 2, 0, 0, 8, 0, 0x0D, 0]), (Outcome::NoMatch, 5));
}

fn outcomes_without_a_reply<K: Tried>() {
    let refused = |refusal, number| (Outcome::Refused(refusal), number);
    assert_eq!(outcome::<K>(&HOME[..6]), refused(Refusal::MessageLength, 12));
    assert_eq!(outcome::<K>(&changed(4, 9)), refused(Refusal::WrongCarrier, 13));
    assert_eq!(outcome::<K>(&changed(6, 9)), refused(Refusal::WrongMessageType, 14));
    let mut bytes = vec![0; K::STORE_SIZE];
    let mut store = Set::<K>::lent(&mut bytes);
    let short = commit_judged(&mut store, &HOME, &mut [0; REPLY_ROOM - 1]).outcome;
    assert_eq!((short, short.number()), refused(Refusal::ReplyShort, 10));
    let zeros = commit_judged(&mut store, &HOME, &mut [0; REPLY_ROOM]).outcome;
    assert_eq!((zeros, zeros.number()), refused(Refusal::NotAStore, 11));
}

fn refused<T>(answer: Result<T, Refusal>) -> (Refusal, u8) {
    let refusal = answer.err().expect("the call is refused");
    (refusal, refusal.number())
}

fn refusals_of_stores_exports_and_rows<K: Tried>() {
    assert_eq!(refused(Set::<K>::start(&mut [0; 3])), (Refusal::NotAStore, 11));
    assert_eq!(refused(Set::<K>::open(&mut vec![0; K::STORE_SIZE])), (Refusal::NotAStore, 11));
    assert_eq!(refused(Set::<K>::lent(&mut [0; 3]).counts()), (Refusal::NotAStore, 11));
    assert_eq!(refused(Set::<K>::lent(&mut [0; 3]).line_of(0, &[])), (Refusal::NotAStore, 11));
    assert_eq!(refused(Set::<K>::lent(&mut [0; 3]).emergency_key()), (Refusal::NotAStore, 11));
    let mut bytes = vec![0; K::STORE_SIZE];
    let store = Set::<K>::start(&mut bytes).expect("the size is right");
    let (mut buffer, mut scratch) = (vec![0; K::LONGEST_MESSAGE], [0; SCRATCH_ROOM]);
    let no_part = Part::ALL.len() as u32 + 1;
    let (short_buffer, short_scratch) = (&mut buffer[1..], &mut scratch[1..]);
    assert_eq!(refused(store.export(Part::Lines, short_buffer)), (Refusal::BufferShort, 15));
    assert_eq!(refused(store.row(Table::Lines, 0, short_scratch)), (Refusal::BufferShort, 15));
    assert_eq!(K::otap_export(no_part, store.bytes(), &mut buffer), 16);
    assert_eq!(Refusal::NoSuchPart.number(), 16);
    assert_eq!(refused(store.row(Table::Lines, 0, &mut scratch)), (Refusal::NoSuchRow, 17));
    assert_eq!(refused(store.check_row(Table::Lines, 0, &scratch)), (Refusal::NoSuchRow, 17));
    assert_eq!(Refusal::NoSuchRow.to_string(), "17: there is no such row");
    assert_eq!(refused(store.entry(Table::Lines, 0)), (Refusal::NothingThere, 17));
    assert_eq!(refused(store.drawn(Table::QuickTexts, 0)), (Refusal::NothingThere, 17));
    assert_eq!(refused(store.channel(0)), (Refusal::NothingThere, 17));
    let short_digits = store.entry_digits(Table::Lines, 0, &mut buffer[..MOST_DIGITS - 1]);
    assert_eq!(refused(short_digits), (Refusal::BufferShort, 15));
    assert_eq!(Refusal::NothingThere.to_string(), "17: nothing stands there");
    assert_eq!(refused(store.line_of(0, &[])), (Refusal::BadNumber, 20));
    let said = Refusal::BadNumber.to_string();
    assert_eq!(said, "20: the caller's number is not 1 to 18 digits");
}

/// A query for the scan channels, of which a fresh store has none.
const CHANNELS: [u8; 9] = [2, 2, 0, 5, 8, 7, 0x0A, 1, 0xCE];

fn refusals_of_reports<K: Tried>() {
    let mut bytes = vec![0; K::STORE_SIZE];
    let store = Set::<K>::start(&mut bytes).expect("the size is right");
    let mut buffer = vec![0; K::LONGEST_MESSAGE];
    let mut changed = |place: usize, byte, index| {
        let mut query = CHANNELS;
        query[place] = byte;
        refused(store.report(&query, index, &mut buffer))
    };
    assert_eq!(changed(0, 2, 2), (Refusal::NoSuchMessage, 16));
    assert_eq!(changed(7, 2, 1), (Refusal::BadField, 4));
    assert_eq!(changed(6, 0x12, 1), (Refusal::WrongVersion, 1));
    assert_eq!(changed(6, 8, 1), (Refusal::WrongMessageType, 14));
    assert_eq!(changed(4, 9, 1), (Refusal::WrongCarrier, 13));
    assert_eq!(refused(store.report(&[], 1, &mut buffer)), (Refusal::MessageLength, 12));
    let short = store.report(&CHANNELS, 1, &mut buffer[1..]);
    assert_eq!(refused(short), (Refusal::BufferShort, 15));
    let nowhere = Set::<K>::lent(&mut [0; 3]).report(&CHANNELS, 1, &mut buffer);
    assert_eq!(refused(nowhere), (Refusal::NotAStore, 11));
    assert_eq!(refused(K::read(&CHANNELS)), (Refusal::WrongMessageType, 14));
    let says = [Refusal::NoSuchMessage, Refusal::BadField, Refusal::WrongVersion];
    let said = [
        "16: the report has no such message",
        "4: a field, a length or a count is wrong",
        "1: OTAPVer is not 1",
    ];
    assert_eq!(says.map(|refusal| refusal.to_string()), said);
}

fn refusals_of_joins<K: Tried>() {
    let mut buffer = vec![0; K::LONGEST_MESSAGE];
    let mut joined = |first: &[u8], second: &[u8]| {
        let refused = K::join(first, second, &mut buffer).expect_err("the call is refused");
        (refused.refusal, refused.refusal.number())
    };
    assert_eq!(joined(&HOME[..6], &HOME), (Refusal::MessageLength, 12));
    assert_eq!(joined(&changed(4, 9), &HOME), (Refusal::WrongCarrier, 13));
    assert_eq!(joined(&HOME, &changed(6, 9)), (Refusal::WrongMessageType, 14));
    assert_eq!(joined(&HOME, &changed(6, 0x10)), (Refusal::WrongVersion, 1));
    assert_eq!(joined(&HOME, &changed(8, 0xD4)), (Refusal::UnknownType, 3));
    assert_eq!(joined(&HOME, &changed(13, 0xE0)), (Refusal::BadField, 4));
    let short = K::join(&HOME, &HOME, &mut buffer[1..]).map_err(|no| no.refusal);
    assert_eq!(refused(short), (Refusal::BufferShort, 15));
    let said = |failed_id, second| {
        NotJoined { refusal: Refusal::UnknownType, failed_id, second }.to_string()
    };
    assert_eq!(said(0, false), "3: a setting's type is not known");
    assert_eq!(said(7, false), "3: a setting's type is not known, in setting 7");
    assert_eq!(said(0, true), "3: a setting's type is not known, of the second request");
    let both = "3: a setting's type is not known, in setting 7, of the second request";
    assert_eq!(said(7, true), both);
}

fn refusals_of_updates<K: Tried>() {
    let mut bytes = vec![0; K::STORE_SIZE];
    Set::<K>::start(&mut bytes).expect("the size is right");
    let mut buffer = vec![0; K::LONGEST_MESSAGE];
    assert_eq!(refused(K::updates(&[0; 3], &bytes, &HOME)), (Refusal::NotAStore, 11));
    assert_eq!(refused(K::updates(&bytes, &[0; 3], &HOME)), (Refusal::NotAStore, 11));
    assert_eq!(refused(K::propose(&[0; 3], &bytes, &mut [])), (Refusal::NotAStore, 11));
    assert_eq!(refused(K::propose(&bytes, &[0; 3], &mut [])), (Refusal::NotAStore, 11));
    assert_eq!(refused(K::propose(&bytes, &bytes, &mut buffer[1..])), (Refusal::BufferShort, 15));
    assert_eq!(refused(K::propose(&bytes, &bytes, &mut buffer)), (Refusal::NoSinglePart, 19));
    let said = Refusal::NoSinglePart.to_string();
    assert_eq!(said, "19: the tables of no part differ, or those of several");
}

#[test]
fn refusals_of_conversions() {
    let (nobody, no_group) = (otap::IndividualAddress(0), otap::GroupAddress(0));
    assert_eq!(refused(otap::individual_of_dialled(0)), (Refusal::OutsidePlan, 20));
    assert_eq!(refused(otap::group_of_dialled(0)), (Refusal::OutsidePlan, 20));
    assert_eq!(Refusal::OutsidePlan.to_string(), "20: the dialled number is outside the plan");
    assert_eq!(refused(otap::dialled_of_individual(nobody)), (Refusal::OutsideKind, 21));
    assert_eq!(refused(otap::dialled_of_group(no_group)), (Refusal::OutsideKind, 21));
    assert_eq!(refused(otap::transmit(0)), (Refusal::NoSuchChannel, 22));
    assert_eq!(refused(otap::receive(641)), (Refusal::NoSuchChannel, 22));
    assert_eq!(refused(otap::channel_of_transmit(0)), (Refusal::NoSuchChannel, 22));
}

/// The tables and parts by their names: each text and each setting's type where its name says.
fn tables_and_parts<K: Tried>() {
    let mut bytes = vec![0; K::STORE_SIZE];
    let mut store = Set::<K>::start(&mut bytes).expect("the size is right");
    let settings: [&[u8]; 8] = [
        &[0xCA, 0, 10, 0x40, 1, 0x12, 0x3F, 0, b'L', 0, 0],
        &[0xCC, 0, 8, 0x41, 0, 0, b'Q', 0, 0],
        &[0xD0, 0, 9, 0x40, 1, 32, 0, b'S', 0, 0],
        &[0xD1, 0, 11, 0x60, 0, 0x10, 0, 1, 0, b'G', 0, 0],
        &[0xD2, 0, 11, 0x40, 0, 0x10, 0, 1, 0, b'I', 0, 0],
        &[0xC8, 0, 12, 0x60, 0, 1, 0x10, 0, 1, 0, b'g', 0, 0],
        &[0xC9, 0, 11, 0x40, 1, 0x10, 0, 1, 0, b'i', 0, 0],
        &[0xD3, 0, 10, 0x40, 0, 0x12, 0x3F, 0, b'l', 0, 0],
    ];
    let message = [&[2, 2, 0, 0, 8, 7, 8, 8], &settings.concat()[..]].concat();
    let outcome = commit_judged(&mut store, &message, &mut [0; REPLY_ROOM]).outcome;
    assert_eq!(outcome, Outcome::Taken);
    let rows = [
        (Table::Lines, 0, b'L'),
        (Table::QuickTexts, 0, b'Q'),
        (Table::StatusTexts, 32, b'S'),
        (Table::Groups, 0, b'G'),
        (Table::Individuals, 0, b'I'),
        (Table::GroupContacts, 0, b'g'),
        (Table::IndividualContacts, 0, b'i'),
        (Table::LineSlots, 0, b'l'),
    ];
    assert!(rows.iter().map(|row| &row.0).eq(Table::ALL), "each table by its name");
    for (table, row, unit) in rows {
        let mut scratch = [0; SCRATCH_ROOM];
        let shown = store.row(table, row, &mut scratch).expect("the row is there");
        assert_eq!(shown.bytes(), [0, unit]);
    }
    let kinds = [0xCA, 0xCB, 0xCC, 0xCE, 0xD0, 0xD1, 0xD2, 0xC8, 0xC9, 0xD3];
    assert_eq!(kinds.len(), Part::ALL.len());
    for (part, kind) in Part::ALL.iter().zip(kinds) {
        let mut buffer = vec![0; K::LONGEST_MESSAGE];
        assert_eq!(store.export(*part, &mut buffer).expect("a part")[8], kind);
    }
}
