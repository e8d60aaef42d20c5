//! The same calls to the archive and to plain Rust.

use crate::conversions;
use crate::desk::Kept;
use crate::joining::Pair;
use crate::reports::{plain_reads, rattle_reads, Asked};
use crate::updating::Update;
use crate::values::Value;
use otap::{Kind, Part, Table, PSTN, REPLY_ROOM, SCRATCH_ROOM};
use otap_reference::layout::{self, fast};
use otap_reference::reference::callers::line_of;
use otap_reference::reference::commit::{commit, judge};
use otap_reference::reference::export::export;
use otap_reference::reference::limits::Limits;
use otap_reference::reference::menu::counts;
use otap_reference::reference::screen::{row_part, Row};
use otap_reference::reference::tables::Set;
use std::hint::black_box;
use std::marker::PhantomData;

#[derive(Clone)]
pub enum Call {
    Judge(Vec<u8>),
    Commit(Vec<u8>),
    Export(Part),
    Row(Table, u32),
    Counts,
    /// The check of the store, and two copies of it: what no request can do without.
    CheckAndCopies,
    /// Who is calling from the telephone network: the digits, and the row that has to be answered.
    LineOf {
        digits: Vec<u8>,
        row: Option<u32>,
    },
    Value(Value),
    Report(Asked),
    /// The office reads a message with all of its parameters.
    ReadReport(Vec<u8>),
    /// The office joins two requests.
    Join(Pair),
    /// The office checks a request from this store to another.
    CheckUpdate(Update),
    /// The office proposes one.
    Propose(Update),
    /// The desk emulator is sent a query.
    PlainTake(Kept),
    /// It is asked for a row.
    PlainRow(Kept),
    /// A hundred conversions, named by their place in `conversions::ALL`.
    Convert(usize),
}

pub trait Side {
    fn call(&mut self, call: &Call) -> u8;
}

/// The verified archive of a kind of set through the face.
#[derive(Clone, PartialEq)]
pub struct Rattle<K> {
    pub bytes: Vec<u8>,
    buffer: Vec<u8>,
    copy: Vec<u8>,
    kind: PhantomData<K>,
}

/// The reference.
#[derive(Clone, PartialEq)]
pub struct Plain {
    set: Set,
    buffer: Vec<u8>,
    copies: [Vec<u8>; 2],
}

/// The reference behind a plain check of a store's bytes, as firmware that trusts no flash would have it.
#[derive(Clone, PartialEq)]
pub struct Checked {
    plain: Plain,
    bytes: Vec<u8>,
}

impl<K: Kind> Rattle<K> {
    pub fn fresh() -> Self {
        let mut bytes = vec![0; K::STORE_SIZE];
        otap::Set::<K>::start(&mut bytes).expect("the size is right");
        let (buffer, copy) = (vec![0; K::LONGEST_MESSAGE], vec![0; K::STORE_SIZE]);
        Rattle { bytes, buffer, copy, kind: PhantomData }
    }
}

impl Plain {
    pub fn fresh(limits: Limits) -> Plain {
        let copies = [vec![0; limits.store], vec![0; limits.store]];
        Plain { set: Set::fresh(limits), buffer: vec![0; limits.message], copies }
    }
}

impl Checked {
    /// The bytes are those of the set, and stay: every call leaves what it found.
    pub fn of(plain: Plain) -> Checked {
        let bytes = layout::bytes(&plain.set);
        Checked { plain, bytes }
    }
}

impl Side for Checked {
    fn call(&mut self, call: &Call) -> u8 {
        let own = || fast::is_store(black_box(&self.bytes), self.plain.set.limits);
        let checked = match call {
            // A conversion has no store, the office has none that it reads reports or joins by, and a desk has an area, which the reference judges too.
            Call::Convert(_) | Call::ReadReport(_) | Call::Join(_) => true,
            Call::PlainTake(_) | Call::PlainRow(_) => true,
            Call::CheckUpdate(update) | Call::Propose(update) => own() && update.is_store(),
            _ => own(),
        };
        if let Call::Convert(which) = call {
            // No store is read: what the archive has besides is the border.
            conversions::ALL[*which].called();
            return 0;
        }
        if checked {
            self.plain.call(call)
        } else {
            11
        }
    }
}

impl<K: Kind> Side for Rattle<K> {
    fn call(&mut self, call: &Call) -> u8 {
        let mut store = otap::Set::<K>::lent(&mut self.bytes);
        match call {
            Call::Judge(message) => {
                store.judge(black_box(message), &mut self.buffer[..REPLY_ROOM]).number()
            }
            Call::Commit(message) => {
                store.commit(black_box(message), &mut self.buffer[..REPLY_ROOM]).number()
            }
            Call::Export(part) => {
                let exported = store.export(black_box(*part), &mut self.buffer);
                exported.map_or_else(|refusal| refusal.number(), |_| 0)
            }
            Call::Row(table, row) => {
                let scratch = &mut self.buffer[..SCRATCH_ROOM];
                let shown = store.row(black_box(*table), black_box(*row), scratch);
                black_box(shown).map_or_else(|refusal| refusal.number(), |_| 0)
            }
            Call::Counts => {
                black_box(store.counts()).map_or_else(|refusal| refusal.number(), |_| 0)
            }
            Call::CheckAndCopies => {
                let checked = black_box(store.counts());
                copied_twice(&self.bytes, &mut self.copy);
                checked.map_or_else(|refusal| refusal.number(), |_| 0)
            }
            Call::LineOf { digits, row } => {
                let found = store.line_of(PSTN, black_box(digits));
                answered(black_box(found).map_err(otap::Refusal::number), *row)
            }
            Call::Value(value) => value.rattle(&store, &mut self.buffer),
            Call::Report(asked) => asked.rattle(&store, &mut self.buffer),
            Call::ReadReport(message) => rattle_reads(message),
            Call::Join(pair) => pair.rattle(&mut self.buffer),
            Call::CheckUpdate(update) => update.rattle_checks(&self.bytes),
            Call::Propose(update) => update.rattle_proposes(&self.bytes, &mut self.buffer),
            Call::PlainTake(kept) => kept.rattle_takes(),
            Call::PlainRow(kept) => kept.rattle_shows(),
            Call::Convert(which) => {
                conversions::ALL[*which].rattle();
                0
            }
        }
    }
}

impl Side for Plain {
    fn call(&mut self, call: &Call) -> u8 {
        match call {
            Call::Judge(message) => {
                judge(black_box(message), &self.set, &mut self.buffer[..REPLY_ROOM]).number
            }
            Call::Commit(message) => {
                commit(black_box(message), &mut self.set, &mut self.buffer[..REPLY_ROOM]).number
            }
            Call::Export(part) => {
                export(black_box(*part).number() as u8, true, &self.set, &mut self.buffer).number
            }
            Call::Row(table, row) => {
                let row = named(black_box(*table), black_box(*row) as usize);
                black_box(row_part(row, true, &self.set, &mut self.buffer[..SCRATCH_ROOM]));
                0
            }
            Call::Counts => black_box(counts(true, black_box(&self.set))).number,
            Call::CheckAndCopies => {
                let [from, to] = &mut self.copies;
                copied_twice(from, to);
                0
            }
            Call::LineOf { digits, row } => {
                answered(black_box(line_of(PSTN, black_box(digits), true, &self.set)), *row)
            }
            Call::Value(value) => value.plain(black_box(&self.set), &mut self.buffer),
            Call::Report(asked) => asked.plain(black_box(&self.set), &mut self.buffer),
            Call::ReadReport(message) => plain_reads(message),
            Call::Join(pair) => pair.plain(&mut self.buffer),
            Call::CheckUpdate(update) => update.plain_checks(&self.set),
            Call::Propose(update) => update.plain_proposes(&self.set, &mut self.buffer),
            Call::PlainTake(kept) => kept.plain_takes(),
            Call::PlainRow(kept) => kept.plain_shows(),
            Call::Convert(which) => {
                conversions::ALL[*which].plain();
                0
            }
        }
    }
}

/// Each copy is made, though nobody reads the first.
fn copied_twice(from: &[u8], to: &mut [u8]) {
    for _ in 0..2 {
        black_box(&mut *to).copy_from_slice(black_box(from));
    }
    black_box(to);
}

/// The number, and that of no call where the answer is another than it has to be.
pub fn answered<T: PartialEq>(answer: Result<T, u8>, wanted: T) -> u8 {
    answer.map_or_else(|number| number, |answer| if answer == wanted { 0 } else { u8::MAX })
}

fn named(table: Table, row: usize) -> Row {
    match table {
        Table::Lines => Row::Line(row),
        Table::QuickTexts => Row::Quick(row),
        Table::StatusTexts => Row::Status(row),
        Table::Groups => Row::Group(row),
        Table::Individuals => Row::Individual(row),
        Table::GroupContacts => Row::GroupContact(row),
        Table::IndividualContacts => Row::IndividualContact(row),
        _ => Row::LineSlot(row),
    }
}
