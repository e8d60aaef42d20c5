//! Calls of every kind for one set as it grows, at times with buffers of a wrong size.

use super::callers::Caller;
use super::joining::JoinInput;
use super::random::Random;
use super::reports::ReportCall;
use super::values::Value;
use super::Inputs;
use crate::reference::commit::REPLY_ROOM;
use crate::reference::export::PARTS;
use crate::reference::limits::Limits;
use crate::reference::screen::SCRATCH_ROOM;

/// For each table of the screen behind the lines, the first row to ask for and how many.
const ROWS: [(u32, usize); 7] = [(0, 66), (30, 100), (0, 18), (0, 18), (0, 66), (0, 66), (0, 18)];

/// A call and the room of the buffer that it writes to, if there is one.
#[derive(Clone, Debug, PartialEq, Eq)]
pub enum Call {
    Judge { message: Vec<u8>, room: usize },
    Commit { message: Vec<u8>, room: usize },
    Export { part: u32, room: usize },
    Row { table: u32, row: u32, room: usize },
    Counts,
}

pub struct Calls {
    random: Random,
    limits: Limits,
    inputs: Inputs,
    /// The message that was judged last, until it is committed.
    waiting: Option<Vec<u8>>,
}

impl Calls {
    pub fn new(seed: u64, limits: Limits) -> Self {
        let inputs = Inputs::new(seed, limits);
        Calls { random: Random::new(!seed), limits, inputs, waiting: None }
    }

    pub fn call(&mut self) -> Call {
        match self.random.below(16) {
            0..=1 => Call::Judge { message: self.judged(), room: self.room(REPLY_ROOM) },
            2..=4 => Call::Commit { message: self.committed(), room: self.room(REPLY_ROOM) },
            5..=9 => {
                Call::Export { part: part(&mut self.random), room: self.room(self.limits.message) }
            }
            10..=14 => {
                let (table, row) = row(&mut self.random, self.limits);
                Call::Row { table, row, room: self.room(SCRATCH_ROOM) }
            }
            _ => Call::Counts,
        }
    }

    /// Who is calling, to be asked between the others: this call has no buffer.
    pub fn caller(&mut self) -> Caller {
        self.inputs.caller()
    }

    /// What stands behind a row or a setting, to be asked between the others too.
    pub fn value(&mut self) -> Value {
        self.inputs.value()
    }

    /// A query to answer, and the room of the buffer for its report.
    pub fn report(&mut self) -> (ReportCall, usize) {
        (self.inputs.report_call(), self.room(self.limits.message))
    }

    /// Two requests to join, and the room of the buffer for the joined one.
    pub fn join(&mut self) -> (JoinInput, usize) {
        (self.inputs.join(), self.room(self.limits.message))
    }

    fn judged(&mut self) -> Vec<u8> {
        let message = self.inputs.message();
        self.waiting = Some(message.clone());
        message
    }

    /// The message that waits, or first another one.
    fn committed(&mut self) -> Vec<u8> {
        let waited = if self.random.percent(50) { self.waiting.take() } else { None };
        waited.unwrap_or_else(|| self.inputs.message())
    }

    /// The right size of a store, or now and then another.
    pub fn store_size(&mut self, right: usize) -> usize {
        let wrong = [0, 1, right - 1, right + 1, right / 2, right * 2];
        if self.random.percent(5) {
            self.random.pick(&wrong)
        } else {
            right
        }
    }

    fn room(&mut self, least: usize) -> usize {
        room(&mut self.random, least)
    }
}

/// A part of an export, seldom none.
pub fn part(random: &mut Random) -> u32 {
    let parts = u32::from(PARTS);
    if random.percent(90) {
        return random.within(1..=parts as usize) as u32;
    }
    // The last two are parts in their low byte or half.
    random.pick(&[0, parts + 1, parts + 2, 255, u32::MAX, 0x101, 0x1_0001])
}

/// A table of the screen and a row, which need not be there.
pub fn row(random: &mut Random, limits: Limits) -> (u32, u32) {
    let tables = 1 + ROWS.len() as u32;
    let table = random.within(1..=tables as usize) as u32;
    let lines = (0, limits.lines + 2);
    let (first, rows) = if table == 1 { lines } else { ROWS[table as usize - 2] };
    let row = first + random.below(rows) as u32;
    match random.below(40) {
        0 => (random.pick(&[0, tables + 1, tables + 2, u32::MAX, 0x104, 0x1_0004]), row),
        1 => (table, row + random.pick(&[0x100, 0x1_0000, 0x8000_0000])),
        _ => (table, row),
    }
}

/// Mostly enough, and often just so.
pub fn room(random: &mut Random, least: usize) -> usize {
    match random.below(20) {
        0 => random.below(least),
        1 => least - 1,
        2..=9 => least,
        _ => least + random.below(50),
    }
}
