//! The archive behind its face, as it answers a question.

use super::question::{Given, Question};
use super::wrong::Wrong;
use crate::pair::{inverted, number_of, patterned, said};
use crate::reports::item_of;
use crate::sets::Tried;
use otap::{Part, Refusal, Set, Slice, Table};
use otap_reference::inputs::callers::Caller;
use otap_reference::inputs::reports::ReportCall;
use otap_reference::inputs::values::Value;
use otap_reference::reference::reports::items::Item;
use std::marker::PhantomData;

/// The store of a set, and what is deliberately wrong with its answers, if anything is.
pub struct Archive<K> {
    pub bytes: Vec<u8>,
    wrong: Option<Wrong>,
    kind: PhantomData<K>,
}

impl<K: Tried> Archive<K> {
    pub fn fresh(wrong: Option<Wrong>) -> Self {
        let mut bytes = patterned(K::STORE_SIZE);
        Set::<K>::start(&mut bytes).expect("any bytes of the size become a store");
        Archive { bytes, wrong, kind: PhantomData }
    }

    fn store(&mut self) -> Set<'_, K> {
        Set::lent(&mut self.bytes)
    }

    pub fn ask(&mut self, question: &Question) -> Given {
        let mut given = self.given(question);
        if let Some(wrong) = self.wrong {
            wrong.alter::<K>(question, &mut given, &mut self.bytes);
        }
        given
    }

    fn given(&mut self, question: &Question) -> Given {
        match question {
            Question::Judge { message, room } => {
                // Over other bytes than committing has, since the reply must not depend on them.
                let mut reply = inverted(*room);
                let answer = said(&self.store().judge(message, &mut reply));
                Given::answer(answer, reply)
            }
            Question::Commit { message, room } => {
                let mut reply = patterned(*room);
                let answer = said(&self.store().commit(message, &mut reply));
                Given::answer(answer, reply)
            }
            Question::Counts => self.counts(),
            Question::Row { table, row, room } => self.row(*table, *row, *room),
            Question::Export { part, room } => self.export(*part, *room),
            Question::Caller(caller) => self.caller(caller),
            Question::Value(value) => self.value(*value),
            Question::Report { call, room } => self.report(call, *room),
            Question::Read { message } => read::<K>(message),
        }
    }

    fn counts(&mut self) -> Given {
        let counts = self.store().counts();
        let number = number_of(&counts);
        let values = counts.map_or(Vec::new(), |counts| {
            vec![counts.lines, counts.channels, counts.free_lines(), counts.free_channels()]
        });
        Given::new(number, values.iter().map(|&value| value as u64).collect(), Vec::new())
    }

    fn row(&mut self, table: u32, row: u32, room: usize) -> Given {
        let mut scratch = patterned(room);
        let Some(named) = Table::from_number(table) else {
            let number = K::otap_row_number(table, row, &self.bytes, &scratch);
            let part = K::otap_row_part(table, row, &self.bytes, &mut scratch);
            return Given::new(number as u8, vec![number.into(), part, 0], scratch);
        };
        let store = self.store();
        let checked = number_of(&store.check_row(named, row, &scratch)).into();
        let (number, values, mut shown) = match store.row(named, row, &mut scratch) {
            Err(refusal) => (refusal.number(), vec![checked, 0, 0], Vec::new()),
            Ok(row) => {
                let slice = match row.slice() {
                    Slice::Store => 1,
                    Slice::Scratch => 2,
                };
                (0, vec![checked, slice, row.offset() as u64], row.bytes().to_vec())
            }
        };
        shown.extend(scratch);
        Given::new(number, values, shown)
    }

    fn export(&mut self, part: u32, room: usize) -> Given {
        let mut buffer = patterned(room);
        let Some(named) = Part::from_number(part) else {
            let packed = K::otap_export(part, &self.bytes, &mut buffer);
            return Given::new(packed as u8, vec![packed >> 16], buffer);
        };
        let exported = self.store().export(named, &mut buffer);
        let (number, length) = (number_of(&exported), exported.map_or(0, <[u8]>::len));
        Given::new(number, vec![length as u64], buffer)
    }

    fn caller(&mut self, caller: &Caller) -> Given {
        let Caller { id_type, digits } = caller;
        let row = self.store().line_of(*id_type, digits).map_err(Refusal::number);
        let packed = K::otap_line_of(*id_type, digits, &self.bytes);
        Given::packed(packed, format!("{row:?}"))
    }

    fn value(&mut self, value: Value) -> Given {
        match value {
            Value::Entry { table, index } => {
                let packed = K::otap_entry(table, index, &self.bytes);
                let store = self.store();
                let named = Table::from_number(table);
                let entry = named.map(|table| store.entry(table, index).map_err(Refusal::number));
                Given::packed(packed, format!("{entry:?}"))
            }
            Value::EntryDigits { table, index, room } => self.digits(table, index, room),
            Value::Channel { position } => {
                let channel = self.store().channel(position).map_err(Refusal::number);
                Given::packed(K::otap_channel(position, &self.bytes), format!("{channel:?}"))
            }
            Value::EmergencyKey => {
                let key = self.store().emergency_key().map_err(Refusal::number);
                Given::packed(K::otap_emergency_key(&self.bytes), format!("{key:?}"))
            }
            Value::HomeNumbers => {
                let home = self.store().home_numbers().map_err(Refusal::number);
                Given::packed(K::otap_home_numbers(&self.bytes), format!("{home:?}"))
            }
            Value::SystemCode => {
                let code = self.store().system_code().map_err(Refusal::number);
                Given::packed(K::otap_system_code(&self.bytes), format!("{code:?}"))
            }
        }
    }

    fn digits(&mut self, table: u32, index: u32, room: usize) -> Given {
        let (mut raw, mut faced) = (patterned(room), patterned(room));
        let packed = K::otap_entry_digits(table, index, &self.bytes, &mut raw);
        let store = self.store();
        let digits = Table::from_number(table).map(|table| {
            store
                .entry_digits(table, index, &mut faced)
                .map(<[u8]>::to_vec)
                .map_err(Refusal::number)
        });
        Given { bytes: raw, ..Given::packed(packed, format!("{digits:?}")) }
    }

    fn report(&mut self, call: &ReportCall, room: usize) -> Given {
        let mut buffer = patterned(room);
        let report = self.store().report(&call.query, call.index, &mut buffer);
        let number = number_of(&report);
        let values = report.map_or([0, 0], |report| [report.total as usize, report.message.len()]);
        Given::new(number, values.map(|value| value as u64).to_vec(), buffer)
    }
}

/// The office's reader, which has no store.
fn read<K: Tried>(message: &[u8]) -> Given {
    let read = K::read(message);
    let number = number_of(&read);
    let Ok(read) = read else { return Given::new(number, Vec::new(), Vec::new()) };
    let items: Vec<Item> = read.entries().map(item_of).collect();
    let values = vec![read.total.into(), read.index.into(), read.count as u64];
    Given { number, values, said: format!("{items:?}"), bytes: Vec::new() }
}
