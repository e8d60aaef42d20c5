//! Files of calls with what each must come to, by which other users of the verified code are tried. The values are the reference's, and the archive is held to
//! each of them while it is written. A line is a call: its name, what is lent, what it answers; bytes in hex, `-` for none; `# start` begins a fresh set.

mod fields;
mod lines;

use crate::desk;
use crate::joining::join_by_both;
use crate::pair::{reference_row, Pair};
use crate::reports::read_by_both;
use crate::sets::Tried;
use crate::updating::{checked, proposed, Lent};
use lines::{
    answer_line, convert_lines, hex, item_lines, joined_line, row_line, value_line, TABLES,
};
use otap_reference::inputs::random::Random;
use otap_reference::inputs::{callers, joining, reports, values, Inputs};
use otap_reference::layout;
use otap_reference::reference::commit::{commit, judge, REPLY_ROOM};
use otap_reference::reference::export::{part_bytes, PARTS};
use otap_reference::reference::limits::HANDHELD;
use otap_reference::reference::menu::counts;
use otap_reference::reference::report_reading::{read, ReadReport};
use otap_reference::reference::screen::{row_number, SCRATCH_ROOM};
use std::ops::Range;

/// Longer ones are passed over, so that the files stay small; so are longer answers.
const LONGEST: usize = 240;
/// Seeds, with which every number is met: the test of the stored files says so.
const SEEDS: Range<u64> = 50..60;
const MESSAGES: usize = 9;

/// The file of a kind of set.
pub fn vectors<K: Tried>() -> String {
    let mut lines: Vec<String> = SEEDS.flat_map(|seed| Vectors::<K>::of(seed).lines).collect();
    lines.extend(convert_lines());
    lines.push(String::new());
    lines.join("\n")
}

struct Vectors<K> {
    pair: Pair<K>,
    /// A desk that gets the same messages; a vehicle has none beside it.
    area: Option<Vec<u8>>,
    inputs: Inputs,
    random: Random,
    lines: Vec<String>,
}

impl<K: Tried> Vectors<K> {
    fn of(seed: u64) -> Self {
        let mut one = Vectors {
            pair: Pair::fresh(),
            area: (K::LIMITS == HANDHELD).then(desk::started),
            inputs: Inputs::new(seed, K::LIMITS),
            random: Random::new(!seed),
            lines: vec!["# start".to_string()],
        };
        for _ in 0..MESSAGES {
            one.step();
        }
        one.lines.push(format!("store {}", sum(&layout::bytes(&one.pair.set))));
        one
    }

    fn step(&mut self) {
        let message = self.message();
        self.update(&message);
        self.take(&message);
        self.rows();
        self.count();
        self.call();
        self.export();
        self.value();
        self.report();
        self.read();
        self.join();
    }

    fn message(&mut self) -> Vec<u8> {
        loop {
            let message = self.inputs.message();
            if message.len() <= LONGEST {
                return message;
            }
        }
    }

    fn update(&mut self, message: &[u8]) {
        let first = self.pair.set.clone();
        let mut second = first.clone();
        commit(message, &mut second, &mut [0; REPLY_ROOM]);
        let lent = [Lent::of(&first), Lent::of(&second)];
        let yes = checked::<K>(&lent[0], &lent[1], message).expect("both are stores");
        self.lines.push(format!("check {} 0 {}", hex(message), u8::from(yes)));
        let proposal = proposed::<K>(&lent[0], &lent[1]);
        let number = *proposal.as_ref().err().unwrap_or(&0);
        self.lines.push(format!("propose {number} {}", hex(&proposal.unwrap_or_default())));
    }

    fn take(&mut self, message: &[u8]) {
        let mut reply = [0; REPLY_ROOM];
        let answer = judge(message, &self.pair.set, &mut reply);
        let names = ["judge", "take"].into_iter().chain(self.area.is_some().then_some("plain"));
        self.lines.extend(names.map(|name| answer_line(name, message, &answer, &reply)));
        assert_eq!(self.pair.judge(message), answer.number);
        assert_eq!(self.pair.commit(message), answer.number);
        if let Some(area) = &mut self.area {
            assert_eq!(desk::take_into(message, area, REPLY_ROOM), answer);
        }
    }

    /// Two rows that are shown, where there are some, and one that may not be.
    fn rows(&mut self) {
        let all: Vec<(u32, u32)> = TABLES
            .iter()
            .flat_map(|&(table, _)| (0..K::MOST_LINES.max(128) as u32).map(move |row| (table, row)))
            .collect();
        let set = &self.pair.set;
        let is_shown = |&(table, row): &(u32, u32)| {
            reference_row(table, row)
                .is_some_and(|row| row_number(row, true, set, &[0; SCRATCH_ROOM]) == 0)
        };
        let shown: Vec<(u32, u32)> = all.iter().copied().filter(is_shown).collect();
        for from in [&shown, &shown, &all] {
            if !from.is_empty() {
                let (table, row) = self.random.pick(from);
                self.row(table, row);
            }
        }
    }

    fn row(&mut self, table: u32, row: u32) {
        let (number, name) =
            (self.pair.show_into(table, row, SCRATCH_ROOM), TABLES[table as usize - 1].1);
        let (place, part) = row_line(table, row, &self.pair.set);
        self.lines.push(format!("screen {name} {row} {number} {place} {part}"));
        if let Some(area) = &self.area {
            let shown = desk::row(table, row, area);
            assert_eq!(shown.as_ref().map_or_else(|number| *number, |_| 0), number);
            self.lines.push(format!(
                "plainrow {name} {row} {number} {}",
                hex(&shown.unwrap_or_default())
            ));
        }
    }

    fn count(&mut self) {
        let held = counts(true, &self.pair.set);
        assert_eq!(self.pair.count(), held.number);
        self.lines.push(format!("counts {} {} {}", held.number, held.lines, held.channels));
    }

    fn call(&mut self) {
        let caller = callers::caller(&mut self.random, &self.pair.set.tables);
        let found = self.pair.call_from(caller.id_type, &caller.digits);
        let number = *found.as_ref().err().unwrap_or(&0);
        let row = found.ok().flatten().map_or("-".to_string(), |row| row.to_string());
        self.lines.push(format!(
            "lookup {} {} {number} {row}",
            caller.id_type,
            hex(&caller.digits)
        ));
    }

    fn export(&mut self) {
        let part = self.random.below(usize::from(PARTS) + 2) as u8;
        let number = self.pair.export_into(part.into(), K::LONGEST_MESSAGE);
        let request = part_bytes(part, &self.pair.set).unwrap_or_default();
        if request.len() <= LONGEST {
            self.lines.push(format!("export {part} {number} {}", hex(&request)));
        }
    }

    fn value(&mut self) {
        for _ in 0..3 {
            let value = values::value(&mut self.random, &self.pair.set);
            self.pair.ask(value);
            self.lines.push(value_line(value, &self.pair.set));
        }
    }

    fn report(&mut self) {
        let call = reports::call(&mut self.random, &self.pair.set);
        let mut buffer = vec![0; K::LONGEST_MESSAGE];
        let told = self.pair.report_into(&call.query, call.index, buffer.len());
        let length = told.map_or(0, |report| report.length);
        if call.query.len().max(length) > LONGEST {
            return;
        }
        let set = &self.pair.set;
        let again = otap_reference::reference::reports::report(
            &call.query,
            call.index,
            true,
            set,
            &mut buffer,
        );
        assert_eq!(again, told);
        let number = *told.as_ref().err().unwrap_or(&0);
        let total = told.map_or(0, |report| report.total);
        let (query, message) = (hex(&call.query), hex(&buffer[..length]));
        self.lines.push(format!("report {} {query} {number} {total} {message}", call.index));
    }

    fn read(&mut self) {
        let message = reports::report(&mut self.random, &self.pair.set).message;
        if message.len() > LONGEST {
            return;
        }
        let number = read_by_both::<K>(&message);
        let nothing = ReadReport { total: 0, index: 0, entries: Vec::new() };
        let said = read(&message, K::LIMITS).unwrap_or(nothing);
        self.lines.extend(item_lines(&message, number, &said));
    }

    fn join(&mut self) {
        let input = joining::input(&mut self.random, &self.pair.set);
        if input.first.len() + input.second.len() <= LONGEST {
            let joined = join_by_both::<K>(&input.first, &input.second);
            self.lines.push(joined_line(&input.first, &input.second, joined));
        }
    }
}

/// The bytes of a store in one number, FNV-1a of 32 bits.
fn sum(bytes: &[u8]) -> u32 {
    bytes.iter().fold(0x811C_9DC5, |sum, &byte| (sum ^ u32::from(byte)).wrapping_mul(0x0100_0193))
}
