//! What both sides are asked, and what a side gives.

use otap_reference::inputs::callers::Caller;
use otap_reference::inputs::reports::ReportCall;
use otap_reference::inputs::values::Value;
use otap_reference::reference::commit::{Answer, REPLY_ROOM};
use std::fmt;

/// A call of the face, with the room of the buffer that it writes to, if there is one.
#[derive(Clone, Debug, PartialEq, Eq)]
pub enum Question {
    Judge { message: Vec<u8>, room: usize },
    Commit { message: Vec<u8>, room: usize },
    Counts,
    Row { table: u32, row: u32, room: usize },
    Export { part: u32, room: usize },
    Caller(Caller),
    Value(Value),
    Report { call: ReportCall, room: usize },
    Read { message: Vec<u8> },
}

impl Question {
    /// The room goes by the message, so that a replay asks the same.
    pub fn commit(message: &[u8]) -> Question {
        Question::Commit { message: message.to_vec(), room: REPLY_ROOM + message.len() % 3 }
    }

    pub fn judge(message: &[u8]) -> Question {
        Question::Judge { message: message.to_vec(), room: REPLY_ROOM + message.len() % 3 }
    }

    /// Whether every message is followed by it.
    pub fn is_always_asked(&self) -> bool {
        matches!(self, Question::Commit { .. } | Question::Counts)
    }
}

impl fmt::Display for Question {
    fn fmt(&self, to: &mut fmt::Formatter) -> fmt::Result {
        match self {
            Question::Judge { message, .. } => write!(to, "judging {} bytes", message.len()),
            Question::Commit { message, .. } => write!(to, "committing {} bytes", message.len()),
            Question::Read { message } => write!(to, "reading a report of {} bytes", message.len()),
            Question::Report { call, .. } => {
                write!(to, "message {} of the report to {}", call.index, hex(&call.query))
            }
            other => write!(to, "{other:?}"),
        }
    }
}

/// An answer in a form that both sides have.
#[derive(Clone, Debug, Default, PartialEq, Eq)]
pub struct Given {
    pub number: u8,
    /// The other values, in the order of their call.
    pub values: Vec<u64>,
    /// What the face has as a type of its own.
    pub said: String,
    /// The whole buffer, behind what is shown of a row.
    pub bytes: Vec<u8>,
}

impl Given {
    pub fn new(number: u8, values: Vec<u64>, bytes: Vec<u8>) -> Given {
        Given { number, values, said: String::new(), bytes }
    }

    /// Of judging or committing, with the whole reply buffer: failed ID, send, reboot and length.
    pub fn answer(answer: Answer, reply: Vec<u8>) -> Given {
        let Answer { number, failed, send, reboot, length } = answer;
        let values = vec![failed.into(), send.into(), reboot.into(), length as u64];
        Given::new(number, values, reply)
    }

    /// Of a packed answer, whose low byte is its number, and of what the face says beside it.
    pub fn packed(packed: u64, said: String) -> Given {
        Given { number: packed as u8, values: vec![packed], said, bytes: Vec::new() }
    }
}

impl fmt::Display for Given {
    fn fmt(&self, to: &mut fmt::Formatter) -> fmt::Result {
        write!(to, "{} {:?}", self.number, self.values)
    }
}

/// Two digits a byte.
pub fn hex(bytes: &[u8]) -> String {
    let bytes: Vec<String> = bytes.iter().map(|byte| format!("{byte:02X}")).collect();
    bytes.join(" ")
}
