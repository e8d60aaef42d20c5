//! What two kinds of set differ in (document 02, A10 and A11): the room of two tables, the sizes of a message and of a store, and how texts are kept. All other
//! rules are equal.

#[cfg(test)]
mod tests;

#[derive(Clone, Copy, Debug, PartialEq, Eq)]
pub struct Limits {
    /// Line contacts, of both IDtypes together.
    pub lines: usize,
    pub channels: usize,
    /// Bytes of the longest message, and of the least buffer for an export, a report or a joined request.
    pub message: usize,
    /// Bytes of a store.
    pub store: usize,
    pub texts: Texts,
}

/// How a set keeps its texts.
#[derive(Clone, Copy, Debug, PartialEq, Eq)]
pub enum Texts {
    /// Each in a place of its own, where the longest fits: no sum binds them.
    Placed,
    /// All in one area of so many bytes, two a unit, without ends.
    Shared(usize),
}

pub const HANDHELD: Limits =
    Limits { lines: 32, channels: 64, message: 4_096, store: 24_576, texts: Texts::Shared(4_096) };

pub const VEHICLE: Limits =
    Limits { lines: 128, channels: 256, message: 8_192, store: 49_152, texts: Texts::Placed };

/// Each kind of set.
pub const BOTH: [Limits; 2] = [HANDHELD, VEHICLE];
