//! What the settings menu shows: how many line contacts and channels are held, and how many are free.

use crate::answer::{byte, half, Refusal};
use crate::kinds::{Handheld, Sizes};

/// A hand-held has room for so many line contacts; [`Set::MOST_LINES`](crate::Set::MOST_LINES) is of either kind.
pub const MOST_LINES: usize = Handheld::MOST_LINES;
/// A hand-held has room for so many channels; [`Set::MOST_CHANNELS`](crate::Set::MOST_CHANNELS) is of either kind.
pub const MOST_CHANNELS: usize = Handheld::MOST_CHANNELS;

/// How many entries a store holds of the two lists that the menu shows.
#[derive(Clone, Copy, Debug, PartialEq, Eq, Hash)]
pub struct Counts {
    /// Line contacts held.
    pub lines: usize,
    /// Scan channels held, each as often as it was added.
    pub channels: usize,
    most_lines: usize,
    most_channels: usize,
}

impl Counts {
    /// Line contacts that there is still a place for. A free place promises no room for a text, which shares
    /// [`Set::TEXT_BYTES`](crate::Set::TEXT_BYTES) with all others.
    pub fn free_lines(&self) -> usize {
        self.most_lines.saturating_sub(self.lines)
    }

    /// Channels that there is still a place for.
    pub fn free_channels(&self) -> usize {
        self.most_channels.saturating_sub(self.channels)
    }

    /// Bits 0 to 7 are the number, 16 to 31 the lines, 32 to 47 the channels. A refusal has no counts, where C gets 0 and 0.
    pub(crate) fn unpack<K: Sizes>(packed: u64) -> Result<Counts, Refusal> {
        match byte(packed, 0) {
            0 => Ok(Counts {
                lines: half(packed, 16),
                channels: half(packed, 32),
                most_lines: K::MOST_LINES,
                most_channels: K::MOST_CHANNELS,
            }),
            number => Err(Refusal::from_number(number)),
        }
    }
}
