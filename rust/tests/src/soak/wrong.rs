//! Deliberate differences: what an archive might get wrong, to see that soaking finds it and shrinks what it sent.

use super::question::{Given, Question};
use crate::sets::Tried;
use otap_reference::inputs::values::Value;

/// What is wrong. Each goes by what the store holds or is sent, never by how many messages there were, so that a shorter sequence can show it too.
#[derive(Clone, Copy, Debug, PartialEq, Eq)]
pub enum Wrong {
    /// The failed ID where a setting has no room.
    Answer,
    /// The last byte of the reply to a request that asks for it and for a restart.
    Reply,
    /// A spare byte of a store with three lines.
    Store,
    /// One line more of three.
    Counts,
    /// A restart that judging foresees for every query that matches.
    Judge,
    /// What the last line slots show.
    Row,
    /// A channel in an export of several.
    Export,
    /// The row before, for a caller that is not the first.
    Caller,
    /// The sixth channel.
    Value,
    /// How many messages a report has that is longer than a fresh set's.
    Report,
    /// A parameter fewer of several that are read.
    Read,
}

impl Wrong {
    pub const ALL: [Wrong; 11] = [
        Wrong::Answer,
        Wrong::Reply,
        Wrong::Store,
        Wrong::Counts,
        Wrong::Judge,
        Wrong::Row,
        Wrong::Export,
        Wrong::Caller,
        Wrong::Value,
        Wrong::Report,
        Wrong::Read,
    ];

    /// By its name in lower case, as the variable SOAK_WRONG has it.
    pub fn named(name: &str) -> Option<Wrong> {
        Wrong::ALL.into_iter().find(|wrong| format!("{wrong:?}").to_lowercase() == name)
    }

    /// Changes the answer to a question, or the store, where this one is wrong.
    pub fn alter<K: Tried>(self, question: &Question, given: &mut Given, store: &mut [u8]) {
        match question {
            Question::Judge { .. } if self == Wrong::Judge => given.values[2] |= matches(given),
            Question::Commit { .. } => self.alter_commit::<K>(given, store),
            Question::Counts if self == Wrong::Counts && given.values[0] >= 3 => {
                given.values[0] += 1;
            }
            Question::Row { table: 8, row: 10.., .. } if self == Wrong::Row => {
                given.bytes[0] ^= u8::from(given.number == 0);
            }
            Question::Export { part: 4, .. } if self == Wrong::Export && given.values[0] > 20 => {
                given.bytes[15] ^= 1;
            }
            Question::Caller(_) if self == Wrong::Caller && given.values[0] >> 16 > 0 => {
                given.values[0] -= 1 << 16;
            }
            Question::Value(Value::Channel { position: 5 }) if self == Wrong::Value => {
                given.values[0] ^= u64::from(given.number == 0) << 16;
            }
            Question::Report { .. } if self == Wrong::Report && given.values[1] > 60 => {
                given.values[0] += 1;
            }
            Question::Read { .. } if self == Wrong::Read && given.number == 0 => {
                given.values[2] -= u64::from(given.values[2] > 3);
            }
            _ => {}
        }
    }

    fn alter_commit<K: Tried>(self, given: &mut Given, store: &mut [u8]) {
        match self {
            Wrong::Answer if given.number == 2 => given.values[0] += 1,
            // Send and reboot.
            Wrong::Reply if given.number == 0 && given.values[1..3] == [1, 1] => {
                let last = given.values[3] as usize - 1;
                given.bytes[last] ^= 1;
            }
            Wrong::Store if given.number == 0 && K::otap_counts(store) >> 16 & 0xFFFF >= 3 => {
                store[K::STORE_SIZE - 1] = 1;
            }
            _ => {}
        }
    }
}

/// 1 of what is sent with number 0, as queries that match are.
fn matches(given: &Given) -> u64 {
    u64::from(given.number == 0) & given.values[1]
}
