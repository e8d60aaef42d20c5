//! The two kinds of set: their sizes are their own, and all other rules are equal.

use crate::calls::Calls;

/// A hand-held.
#[derive(Clone, Copy, Debug, PartialEq, Eq, Hash)]
pub enum Handheld {}

/// A vehicle set; with the feature `vehicle` it is a [`Kind`].
#[derive(Clone, Copy, Debug, PartialEq, Eq, Hash)]
pub enum Vehicle {}

/// What the kinds differ in.
pub trait Sizes {
    /// A store has exactly so many bytes.
    const STORE_SIZE: usize;
    /// A message has at most so many bytes; a buffer for an export, a report, a joined request or a proposal at least as many.
    const LONGEST_MESSAGE: usize;
    /// A set has room for so many line contacts.
    const MOST_LINES: usize;
    /// A set has room for so many channels.
    const MOST_CHANNELS: usize;
    /// All texts of a set share so many bytes, two a unit; nothing where each has a place of its own, and no sum binds them.
    const TEXT_BYTES: Option<usize>;
}

impl Sizes for Handheld {
    const STORE_SIZE: usize = 24_576;
    const LONGEST_MESSAGE: usize = 4_096;
    const MOST_LINES: usize = 32;
    const MOST_CHANNELS: usize = 64;
    const TEXT_BYTES: Option<usize> = Some(4_096);
}

impl Sizes for Vehicle {
    const STORE_SIZE: usize = 49_152;
    const LONGEST_MESSAGE: usize = 8_192;
    const MOST_LINES: usize = 128;
    const MOST_CHANNELS: usize = 256;
    const TEXT_BYTES: Option<usize> = None;
}

/// A kind of set whose archive is linked: its sizes and its functions. No other can be made outside this crate.
pub trait Kind: Sizes + Calls {}

impl<K: Sizes + Calls> Kind for K {}
