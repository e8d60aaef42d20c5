//! What is measured: a name, a call, and the number that it must answer.

use crate::conversions;
use crate::desk;
use crate::joining;
use crate::messages;
use crate::reports;
use crate::sides::{Call, Checked, Plain, Rattle, Side};
use crate::updating;
use crate::values;
use otap::{Handheld, Part, Table, Vehicle};
use otap_reference::reference::limits::{Limits, HANDHELD, VEHICLE};

#[derive(Clone)]
pub struct Case {
    /// Of the set that is called.
    pub limits: Limits,
    pub name: String,
    pub call: Call,
    pub number: u8,
    /// What a full store is sent before it is called.
    pub before: Vec<Vec<u8>>,
}

const PARTS: [&str; 10] = [
    "lines",
    "key-home-system",
    "quick-texts",
    "channels",
    "status-texts",
    "groups",
    "individuals",
    "group-contacts",
    "individual-contacts",
    "line-slots",
];

/// Last rows have a text; the rows before them have none, where a number is written.
const ROWS: [(&str, Table, u32); 14] = [
    ("line-text", Table::Lines, 31),
    ("line-number", Table::Lines, 30),
    ("quick-text", Table::QuickTexts, 63),
    ("status-text", Table::StatusTexts, 127),
    ("group-text", Table::Groups, 15),
    ("group-number", Table::Groups, 14),
    ("individual-text", Table::Individuals, 15),
    ("individual-number", Table::Individuals, 14),
    ("group-contact-text", Table::GroupContacts, 63),
    ("group-contact-number", Table::GroupContacts, 62),
    ("individual-contact-text", Table::IndividualContacts, 63),
    ("individual-contact-number", Table::IndividualContacts, 62),
    ("line-slot-text", Table::LineSlots, 15),
    ("line-slot-number", Table::LineSlots, 14),
];

/// Judged beside committed: a long request and a short one; a query too.
const JUDGED: [&str; 2] = ["lines", "last-item"];

pub fn all() -> Vec<Case> {
    [of_a_handheld(), of_a_vehicle()].concat()
}

fn of_a_handheld() -> Vec<Case> {
    let case =
        |name: String, call, number| Case { limits: HANDHELD, name, call, number, before: vec![] };
    let mut cases = Vec::new();
    for (kind, message) in messages::of_each_kind() {
        if JUDGED.contains(&kind) {
            cases.push(case(format!("judge-{kind}"), Call::Judge(message.clone()), 0));
        }
        cases.push(case(format!("commit-{kind}"), Call::Commit(message), 0));
    }
    cases.push(case("commit-refused".into(), Call::Commit(messages::refused()), 4));
    for (name, call) in small(HANDHELD) {
        cases.push(case(name, call, 0));
    }
    cases.push(case("judge-query".into(), Call::Judge(messages::matching_query()), 0));
    cases.push(case("commit-query".into(), Call::Commit(messages::matching_query()), 0));
    for (&part, name) in Part::ALL.iter().zip(PARTS) {
        cases.push(case(format!("export-{name}"), Call::Export(part), 0));
    }
    for (name, table, row) in ROWS {
        cases.push(case(format!("row-{name}"), Call::Row(table, row), 0));
    }
    cases.push(case("counts".into(), Call::Counts, 0));
    for (name, digits, row) in messages::callers(HANDHELD) {
        cases.push(case(format!("line-of-{name}"), Call::LineOf { digits, row }, 0));
    }
    for value in values::ALL {
        cases.push(case(value.name().into(), Call::Value(value), 0));
    }
    for (name, asked) in reports::queries() {
        cases.push(case(format!("report-{name}"), Call::Report(asked), 0));
    }
    for (name, message) in reports::messages() {
        cases.push(case(format!("read-report-{name}"), Call::ReadReport(message), 0));
    }
    for (name, pair, number) in joining::pairs() {
        cases.push(case(format!("join-{name}"), Call::Join(pair), number));
    }
    for (name, call, number) in updating::calls() {
        cases.push(case(name.into(), call, number));
    }
    for (name, call, number) in desk::calls() {
        cases.push(case(name, call, number));
    }
    for (which, conversion) in conversions::ALL.iter().enumerate() {
        cases.push(case(format!("{}-x100", conversion.name), Call::Convert(which), 0));
    }
    cases
}

/// What a vehicle is asked too, where its sizes count: its requests, rows and exports of the longer lists, its check, which is what the counts are, and its reports.
fn of_a_vehicle() -> Vec<Case> {
    let last = VEHICLE.lines as u32 - 1;
    let mut calls = Vec::new();
    for (kind, message) in messages::of_a_vehicle(VEHICLE) {
        calls.push((format!("commit-{kind}"), Call::Commit(message)));
    }
    calls.extend(small(VEHICLE));
    calls.push(("export-lines".into(), Call::Export(Part::Lines)));
    calls.push(("export-channels".into(), Call::Export(Part::Channels)));
    calls.push(("row-line-text".into(), Call::Row(Table::Lines, last)));
    calls.push(("row-line-number".into(), Call::Row(Table::Lines, last - 1)));
    calls.push(("counts".into(), Call::Counts));
    for (name, digits, row) in messages::callers(VEHICLE) {
        calls.push((format!("line-of-{name}"), Call::LineOf { digits, row }));
    }
    for (name, asked) in reports::queries_to_a_vehicle() {
        calls.push((format!("report-{name}"), Call::Report(asked)));
    }
    let case = |(name, call): (String, Call)| {
        let name = format!("vehicle-{name}");
        Case { limits: VEHICLE, name, call, number: 0, before: vec![] }
    };
    calls.into_iter().map(case).collect()
}

/// Requests of one small setting, judged and committed, and what they cannot do without.
fn small(limits: Limits) -> Vec<(String, Call)> {
    let mut calls = vec![("check-and-copies".into(), Call::CheckAndCopies)];
    for (name, message) in messages::small::of_one_setting(limits) {
        calls.push((format!("judge-{name}"), Call::Judge(message.clone())));
        calls.push((format!("commit-{name}"), Call::Commit(message)));
    }
    calls
}

/// A full store, after the case's own call has been made once where it changes anything.
pub fn ready<S: Side + Clone + PartialEq>(mut side: S, case: &Case) -> S {
    for message in messages::filling(case.limits).into_iter().chain(case.before.clone()) {
        assert_eq!(side.call(&Call::Commit(message)), 0);
    }
    assert_eq!(side.call(&case.call), case.number, "{}", case.name);
    let once = side.clone();
    assert_eq!(side.call(&case.call), case.number, "{}", case.name);
    assert!(side == once, "{}: the second call leaves what the first left", case.name);
    side
}

pub fn rattle(case: &Case) -> Box<dyn Side> {
    if case.limits == VEHICLE {
        Box::new(ready(Rattle::<Vehicle>::fresh(), case))
    } else {
        Box::new(ready(Rattle::<Handheld>::fresh(), case))
    }
}

pub fn plain(case: &Case) -> Plain {
    ready(Plain::fresh(case.limits), case)
}

pub fn checked(case: &Case) -> Checked {
    Checked::of(plain(case))
}
