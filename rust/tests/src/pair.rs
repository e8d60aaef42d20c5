//! A store behind the face and a set of the reference, which get the same calls and must stay alike.

use crate::sets::Tried;
use otap::{Part, Refusal, Row, Slice, Table};
use otap_reference::layout;
use otap_reference::reference::callers::line_of;
use otap_reference::reference::commit::{commit_from, judge_from, Answer};
use otap_reference::reference::export::{export, Exported};
use otap_reference::reference::menu::{self, counts};
use otap_reference::reference::screen::{self, row_number, row_part, Shown};
use otap_reference::reference::tables::Set;
use std::marker::PhantomData;

/// Of one kind of set.
#[derive(Clone)]
pub struct Pair<K> {
    pub bytes: Vec<u8>,
    pub set: Set,
    kind: PhantomData<K>,
}

impl<K: Tried> Pair<K> {
    pub fn of(bytes: Vec<u8>, set: Set) -> Self {
        Pair { bytes, set, kind: PhantomData }
    }

    pub fn fresh() -> Self {
        let mut bytes = patterned(K::STORE_SIZE);
        otap::Set::<K>::start(&mut bytes).expect("any bytes of the size become a store");
        Pair::of(bytes, Set::fresh(K::LIMITS))
    }

    pub fn store(&mut self) -> otap::Set<'_, K> {
        otap::Set::lent(&mut self.bytes)
    }

    pub fn judge(&mut self, message: &[u8]) -> u8 {
        self.judge_into(message, otap::REPLY_ROOM)
    }

    pub fn commit(&mut self, message: &[u8]) -> u8 {
        self.commit_into(message, otap::REPLY_ROOM)
    }

    /// Number and failed ID.
    pub fn told(&mut self, message: &[u8]) -> (u8, u8) {
        let (judged, _) = self.judge_over(message, &patterned(otap::REPLY_ROOM));
        (self.commit(message), judged.failed)
    }

    /// Both judge the message: the same answer and reply, and the store stays.
    pub fn judge_into(&mut self, message: &[u8], room: usize) -> u8 {
        let mut expected = patterned(room);
        let is_store = self.is_store();
        let wanted = judge_from(message, is_store, &self.set, &mut expected);
        let (said, reply) = self.judge_over(message, &patterned(room));
        assert_eq!(said, wanted, "{message:02X?}");
        assert_eq!(reply, expected[..wanted.length], "{message:02X?}");
        said.number
    }

    /// Answer and reply of judging with a buffer that held these bytes: those behind the reply stay, and so does the store.
    pub fn judge_over(&mut self, message: &[u8], held: &[u8]) -> (Answer, Vec<u8>) {
        let before = self.bytes.clone();
        let mut buffer = held.to_vec();
        let judged = said(&self.store().judge(message, &mut buffer));
        assert!(self.bytes == before, "judging {message:02X?} changes the store");
        let (reply, rest) = buffer.split_at(judged.length);
        assert!(rest == &held[judged.length..], "behind the reply to {message:02X?}");
        (judged, reply.to_vec())
    }

    /// The message is judged first, by both and over other bytes. Then both commit it: the same answer again, the same reply, and change or stay.
    pub fn commit_into(&mut self, message: &[u8], room: usize) -> u8 {
        self.judge_into(message, room);
        let judged = self.judge_over(message, &inverted(room));
        let (bytes, set) = (self.bytes.clone(), self.set.clone());
        let (mut reply, mut expected) = (patterned(room), patterned(room));
        let answer = said(&self.store().commit(message, &mut reply));
        assert_eq!((answer, &reply[..answer.length]), (judged.0, &judged.1[..]), "{message:02X?}");
        let is_store = bytes.len() == K::STORE_SIZE;
        assert_eq!(answer, commit_from(message, is_store, &mut self.set, &mut expected));
        assert!(reply == expected, "the whole reply buffer after {message:02X?}");
        // Equal contents are equal bytes, so that one stays exactly where the other does.
        assert_eq!(self.bytes == bytes, self.set == set, "{message:02X?}");
        assert!(answer.number == 0 || self.bytes == bytes, "refused, so the store stays");
        assert!(
            !is_store || self.bytes == layout::bytes(&self.set),
            "the store's bytes after {message:02X?}"
        );
        self.count();
        answer.number
    }

    pub fn export_into(&mut self, part: u32, room: usize) -> u8 {
        let before = self.bytes.clone();
        let (mut buffer, mut expected) = (patterned(room), patterned(room));
        let is_store = self.is_store();
        let known = u8::try_from(part).unwrap_or(0);
        let wanted = export(known, is_store, &self.set, &mut expected);
        let (number, length) = self.exported(part, &mut buffer);
        assert_eq!(Exported { number, length }, wanted, "part {part}");
        assert!(buffer == expected, "the whole buffer of part {part}");
        assert!(self.bytes == before, "an export only reads");
        number
    }

    /// Number and length, by the face where it has a name for the part.
    fn exported(&mut self, part: u32, buffer: &mut [u8]) -> (u8, usize) {
        let Some(named) = Part::from_number(part) else {
            let packed = K::otap_export(part, &self.bytes, buffer);
            return (packed as u8, usize::from((packed >> 16) as u16));
        };
        let exported = self.store().export(named, buffer);
        (number_of(&exported), exported.map_or(0, <[u8]>::len))
    }

    /// The number by both calls, which slice, its bytes, and the scratch around a written number.
    pub fn show_into(&mut self, table: u32, row: u32, room: usize) -> u8 {
        let (mut scratch, mut expected) = (patterned(room), patterned(room));
        let is_store = self.is_store();
        let (number, shown) = match reference_row(table, row) {
            Some(row) => {
                let number = row_number(row, is_store, &self.set, &expected);
                (number, row_part(row, is_store, &self.set, &mut expected))
            }
            None => (absent_number(is_store, room), Shown::Nothing),
        };
        let before = self.bytes.clone();
        // A number stands at the scratch's start, a text where docs/STORE.md says.
        let offset = match (reference_row(table, row), &shown) {
            (Some(row), Shown::Stored(_)) => layout::text_at(&before, K::LIMITS, row),
            _ => 0,
        };
        if let Some(named) = Table::from_number(table) {
            let store = self.store();
            let checked = store.check_row(named, row, &scratch);
            assert_eq!(number_of(&checked), number, "table {table} row {row}");
            let given = store.row(named, row, &mut scratch);
            assert_eq!(number_of(&given), number, "table {table} row {row}");
            if let Ok(part) = given {
                assert_same(part, &shown, offset, table, row);
            }
        } else {
            assert_eq!(K::otap_row_number(table, row, &self.bytes, &scratch), u32::from(number));
            assert_eq!(K::otap_row_part(table, row, &self.bytes, &mut scratch), 0);
        }
        assert!(scratch == expected, "the whole scratch of table {table} row {row}");
        assert!(self.bytes == before, "the screen only reads");
        number
    }

    /// The number, both counts and what is free; the packed answer has no other bit.
    pub fn count(&mut self) -> u8 {
        let before = self.bytes.clone();
        let wanted = counts(self.is_store(), &self.set);
        let store = self.store();
        let said = store.counts();
        assert_eq!(number_of(&said), wanted.number);
        assert_eq!(packed(&wanted), K::otap_counts(store.bytes()));
        if let Ok(said) = said {
            assert_eq!((said.lines, said.channels), (wanted.lines, wanted.channels));
            assert_eq!((said.free_lines(), said.free_channels()), self.set.free());
        }
        assert!(self.bytes == before, "the menu only reads");
        wanted.number
    }

    /// Who is calling: a row, none, or the refusal; the packed answer has no other bit. The screen then shows the caller alike.
    pub fn call_from(&mut self, id_type: u32, digits: &[u8]) -> Result<Option<u32>, u8> {
        let before = self.bytes.clone();
        let wanted = line_of(id_type, digits, self.is_store(), &self.set);
        let store = self.store();
        let said = store.line_of(id_type, digits).map_err(Refusal::number);
        assert_eq!(said, wanted, "{id_type} {digits:?}");
        assert_eq!(K::otap_line_of(id_type, digits, store.bytes()), packed_caller(wanted));
        assert!(self.bytes == before, "looking up only reads");
        if let Ok(Some(row)) = wanted {
            assert_eq!(self.show_into(1, row, otap::SCRATCH_ROOM), 0, "the caller's row");
        }
        wanted
    }

    pub fn compare_exports(&mut self) {
        for part in 0..=Part::ALL.len() as u32 + 1 {
            self.export_into(part, K::LONGEST_MESSAGE + part as usize);
        }
    }

    /// Every row of every table, and absent ones on either side; says how many were shown.
    pub fn compare_rows(&mut self) -> usize {
        let rooms = otap::SCRATCH_ROOM;
        let most = [2, K::MOST_LINES as u32 + 2, 66, 130, 18, 18, 66, 66, 18, 2];
        (0..)
            .zip(most)
            .flat_map(|(table, rows)| (0..rows).map(move |row| (table, row)))
            .filter(|&(table, row)| self.show_into(table, row, rooms + row as usize) == 0)
            .count()
    }
}

/// Judges and commits by the face alone, where there is no set beside the store: the same answer and reply, and only committing changes it.
pub fn commit_judged<'r, K: Tried>(
    store: &mut otap::Set<K>,
    message: &[u8],
    reply: &'r mut [u8],
) -> otap::Answer<'r> {
    let before = store.bytes().to_vec();
    let mut forecast = inverted(reply.len());
    let judged = store.judge(message, &mut forecast);
    assert!(store.bytes() == before, "judging {message:02X?} changes the store");
    let answer = store.commit(message, reply);
    assert_eq!(answer, judged, "{message:02X?}");
    answer
}

/// What the face answered, as the reference has it.
pub(crate) fn said(answer: &otap::Answer) -> Answer {
    Answer {
        number: answer.number(),
        failed: answer.failed_id,
        send: answer.send,
        reboot: answer.reboot,
        length: answer.reply.len(),
    }
}

/// The bits of the C answer: number 0 to 7, lines 16 to 31, channels 32 to 47, all others 0.
fn packed(counts: &menu::Counts) -> u64 {
    u64::from(counts.number) | (counts.lines as u64) << 16 | (counts.channels as u64) << 32
}

/// The bits of the C answer: number 0 to 7, 8 where there is a row, the row 16 to 31, all others 0.
fn packed_caller(answer: Result<Option<u32>, u8>) -> u64 {
    answer.map_or_else(u64::from, |row| row.map_or(0, |row| 1 << 8 | u64::from(row) << 16))
}

fn assert_same(part: Row, shown: &Shown, offset: usize, table: u32, row: u32) {
    let (slice, units) = match shown {
        Shown::Stored(units) => (Slice::Store, units),
        Shown::Scratch(units) => (Slice::Scratch, units),
        Shown::Nothing => panic!("table {table} row {row} is not there"),
    };
    assert_eq!(part.slice(), slice, "table {table} row {row}");
    assert_eq!(part.offset(), offset, "table {table} row {row}");
    let bytes: Vec<u8> = units.iter().flat_map(|unit| unit.to_be_bytes()).collect();
    assert_eq!(part.bytes(), bytes, "table {table} row {row}");
    assert!(part.units().eq(units.iter().copied()));
}

/// The reference names rows by table; a table outside the eight has none.
pub(crate) fn reference_row(table: u32, row: u32) -> Option<screen::Row> {
    let row = row as usize;
    match table {
        1 => Some(screen::Row::Line(row)),
        2 => Some(screen::Row::Quick(row)),
        3 => Some(screen::Row::Status(row)),
        4 => Some(screen::Row::Group(row)),
        5 => Some(screen::Row::Individual(row)),
        6 => Some(screen::Row::GroupContact(row)),
        7 => Some(screen::Row::IndividualContact(row)),
        8 => Some(screen::Row::LineSlot(row)),
        _ => None,
    }
}

pub(crate) fn absent_number(is_store: bool, room: usize) -> u8 {
    match (room < otap::SCRATCH_ROOM, is_store) {
        (true, _) => 15,
        (false, false) => 11,
        (false, true) => 17,
    }
}

pub fn number_of<T>(answer: &Result<T, Refusal>) -> u8 {
    answer.as_ref().map_or_else(|refusal| refusal.number(), |_| 0)
}

/// Bytes that no call would write by chance.
pub fn patterned(length: usize) -> Vec<u8> {
    (0..length).map(|place| (place * 7 % 251) as u8 ^ 0xA5).collect()
}

/// As many other bytes: each differs from that of `patterned`.
pub fn inverted(length: usize) -> Vec<u8> {
    patterned(length).iter().map(|byte| !byte).collect()
}
