//! The reference, as it must answer a question: nothing of it comes from the archive or from the store's bytes.

use super::question::{Given, Question};
use crate::pair::{absent_number, inverted, patterned, reference_row};
use crate::reports::unranked;
use crate::values::{faced, faced_key};
use otap::Table;
use otap_reference::inputs::callers::Caller;
use otap_reference::inputs::reports::ReportCall;
use otap_reference::inputs::values::Value;
use otap_reference::layout;
use otap_reference::reference::callers::line_of;
use otap_reference::reference::commit::{commit, judge};
use otap_reference::reference::export::export;
use otap_reference::reference::limits::Limits;
use otap_reference::reference::menu::counts;
use otap_reference::reference::packing::{
    packed_channel, packed_digits, packed_emergency_key, packed_entry, packed_home_numbers,
    packed_system_code,
};
use otap_reference::reference::report_reading::read;
use otap_reference::reference::reports;
use otap_reference::reference::screen::{row_number, row_part, Shown};
use otap_reference::reference::settings::{HomeNumbers, SystemCode};
use otap_reference::reference::tables::Set;
use otap_reference::reference::values;

/// A set, and the bytes that its store must have.
pub struct Reference {
    pub set: Set,
    pub bytes: Vec<u8>,
}

impl Reference {
    pub fn fresh(limits: Limits) -> Self {
        let set = Set::fresh(limits);
        Reference { bytes: layout::bytes(&set), set }
    }

    pub fn ask(&mut self, question: &Question) -> Given {
        match question {
            Question::Judge { message, room } => {
                let mut reply = inverted(*room);
                let answer = judge(message, &self.set, &mut reply);
                Given::answer(answer, reply)
            }
            Question::Commit { message, room } => {
                let mut reply = patterned(*room);
                let answer = commit(message, &mut self.set, &mut reply);
                if answer.number == 0 {
                    self.bytes = layout::bytes(&self.set);
                }
                Given::answer(answer, reply)
            }
            Question::Counts => self.counts(),
            Question::Row { table, row, room } => self.row(*table, *row, *room),
            Question::Export { part, room } => {
                let mut buffer = patterned(*room);
                let part = u8::try_from(*part).unwrap_or(0);
                let exported = export(part, true, &self.set, &mut buffer);
                Given::new(exported.number, vec![exported.length as u64], buffer)
            }
            Question::Caller(caller) => self.caller(caller),
            Question::Value(value) => self.value(*value),
            Question::Report { call, room } => self.report(call, *room),
            Question::Read { message } => self.read(message),
        }
    }

    fn counts(&self) -> Given {
        let (counts, free) = (counts(true, &self.set), self.set.free());
        let values = [counts.lines, counts.channels, free.0, free.1];
        Given::new(counts.number, values.map(|value| value as u64).to_vec(), Vec::new())
    }

    fn row(&self, table: u32, place: u32, room: usize) -> Given {
        let mut scratch = patterned(room);
        let Some(row) = reference_row(table, place) else {
            let number = absent_number(true, room);
            return Given::new(number, vec![number.into(), 0, 0], scratch);
        };
        let number = row_number(row, true, &self.set, &scratch);
        let shown = row_part(row, true, &self.set, &mut scratch);
        let (slice, offset, units) = match shown {
            Shown::Nothing => (0, 0, Vec::new()),
            Shown::Stored(units) => {
                (1, layout::text_at(&self.bytes, self.set.limits, row) as u64, units)
            }
            Shown::Scratch(units) => (2, 0, units),
        };
        let mut bytes: Vec<u8> = units.iter().flat_map(|unit| unit.to_be_bytes()).collect();
        bytes.extend(scratch);
        Given::new(number, vec![number.into(), slice, offset], bytes)
    }

    fn caller(&self, caller: &Caller) -> Given {
        let row = line_of(caller.id_type, &caller.digits, true, &self.set);
        // Number 0 to 7, 8 where there is a row, the row 16 to 31.
        let found = |row: Option<u32>| row.map_or(0, |row| 1 << 8 | u64::from(row) << 16);
        Given::packed(row.map_or_else(u64::from, found), format!("{row:?}"))
    }

    fn value(&self, value: Value) -> Given {
        match value {
            Value::Entry { table, index } => {
                let entry = values::entry(table, index, true, &self.set);
                let said = Table::from_number(table).map(|_| entry.map(faced));
                Given::packed(packed_entry(entry), format!("{said:?}"))
            }
            Value::EntryDigits { table, index, room } => self.digits(table, index, room),
            Value::Channel { position } => {
                let channel = values::channel(position, true, &self.set);
                let said = channel.map(u32::from);
                Given::packed(packed_channel(channel), format!("{said:?}"))
            }
            Value::EmergencyKey => {
                let key = values::emergency_key(true, &self.set);
                Given::packed(packed_emergency_key(key), format!("{:?}", key.map(faced_key)))
            }
            Value::HomeNumbers => {
                let home = values::home_numbers(true, &self.set);
                let said = home.map(|HomeNumbers { nzi, np }| otap::HomeNumbers { nzi, np });
                Given::packed(packed_home_numbers(home), format!("{said:?}"))
            }
            Value::SystemCode => {
                let code = values::system_code(true, &self.set);
                let faced = |SystemCode { lai, la, roaming, par }| otap::SystemCode {
                    lai,
                    la,
                    roaming,
                    par,
                };
                Given::packed(packed_system_code(code), format!("{:?}", code.map(faced)))
            }
        }
    }

    fn digits(&self, table: u32, index: u32, room: usize) -> Given {
        let mut buffer = patterned(room);
        let count = values::entry_digits(table, index, true, &self.set, &mut buffer);
        let digits = Table::from_number(table).map(|_| count.map(|count| buffer[..count].to_vec()));
        let said = format!("{digits:?}");
        Given { bytes: buffer, ..Given::packed(packed_digits(count), said) }
    }

    fn report(&self, call: &ReportCall, room: usize) -> Given {
        let mut buffer = patterned(room);
        match reports::report(&call.query, call.index, true, &self.set, &mut buffer) {
            Err(number) => Given::new(number, vec![0, 0], buffer),
            Ok(report) => Given::new(0, vec![report.total.into(), report.length as u64], buffer),
        }
    }

    fn read(&self, message: &[u8]) -> Given {
        match read(message, self.set.limits) {
            Err(number) => Given::new(number, Vec::new(), Vec::new()),
            Ok(read) => {
                let items = unranked(read.items());
                let values = vec![read.total.into(), read.index.into(), items.len() as u64];
                Given { number: 0, values, said: format!("{items:?}"), bytes: Vec::new() }
            }
        }
    }
}
