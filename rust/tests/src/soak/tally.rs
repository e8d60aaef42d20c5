//! What was met: without it, a soak that sends nothing of a kind would look like one that found nothing there.

use crate::types_of;
use otap_reference::reference::texts::Coding;
use std::collections::BTreeMap;
use std::fmt;

#[derive(Clone, Debug, Default, PartialEq, Eq)]
pub struct Tally {
    pub messages: u64,
    pub judged: u64,
    /// Questions beside judging, committing and counting.
    pub asked: u64,
    /// How often everything was asked.
    pub all: u64,
    /// How often each number was answered.
    pub numbers: BTreeMap<u8, u64>,
    /// Settings that were taken, by type and coding type.
    pub taken: BTreeMap<(u8, u8), u64>,
}

impl Tally {
    pub fn count(&mut self, message: &[u8], number: u8) {
        self.messages += 1;
        *self.numbers.entry(number).or_default() += 1;
        let coding = message.get(5).and_then(|byte| Coding::from_number(byte & 0x0F));
        let Some(coding) = coding.filter(|_| number == 0 && message[6] & 7 == 0) else { return };
        for kind in types_of(message, coding) {
            *self.taken.entry((kind, coding.number())).or_default() += 1;
        }
    }

    /// Both together.
    pub fn plus(mut self, other: Tally) -> Tally {
        self.messages += other.messages;
        self.judged += other.judged;
        self.asked += other.asked;
        self.all += other.all;
        for (number, many) in other.numbers {
            *self.numbers.entry(number).or_default() += many;
        }
        for (kind, many) in other.taken {
            *self.taken.entry(kind).or_default() += many;
        }
        self
    }
}

impl fmt::Display for Tally {
    fn fmt(&self, to: &mut fmt::Formatter) -> fmt::Result {
        let Tally { judged, asked, all, .. } = self;
        writeln!(to, "{judged} judged first, {asked} other questions, {all} times all of them")?;
        let numbers: Vec<String> =
            self.numbers.iter().map(|(number, many)| format!("{number}: {many}")).collect();
        writeln!(to, "numbers: {}", numbers.join(", "))?;
        let kinds: Vec<String> = self
            .taken
            .iter()
            .map(|((kind, coding), many)| format!("{kind:02X} {coding:04b}: {many}"))
            .collect();
        writeln!(to, "settings taken: {}", kinds.join(", "))
    }
}
