//! Two requests for the office to join: by the archive and by plain Rust.

use crate::messages::groups_and_halves;
use crate::sides::answered;
use otap_reference::reference::joining::join;
use otap_reference::reference::limits::HANDHELD;
use std::hint::black_box;

/// Two requests, and how many bytes have to be written of them.
#[derive(Clone)]
pub struct Pair {
    first: Vec<u8>,
    second: Vec<u8>,
    written: usize,
}

impl Pair {
    /// The bytes of both.
    pub fn size(&self) -> usize {
        self.first.len() + self.second.len()
    }

    /// The number, by the face.
    pub fn rattle(&self, buffer: &mut [u8]) -> u8 {
        let joined = otap::join(black_box(&self.first), black_box(&self.second), buffer);
        let written = black_box(joined).map(<[u8]>::len).map_err(|no| no.refusal.number());
        answered(written, self.written)
    }

    /// The same, by the reference.
    pub fn plain(&self, buffer: &mut [u8]) -> u8 {
        let joined = join(black_box(&self.first), black_box(&self.second), HANDHELD, buffer);
        answered(black_box(joined).map_err(|no| no.number), self.written)
    }
}

/// A name and a number for each pair: two that fill one message when joined, and two full ones, which are read to their ends before they are too long.
pub fn pairs() -> [(&'static str, Pair, u8); 2] {
    let (full, [first, second]) = groups_and_halves();
    let halves = Pair { first, second, written: full.len() };
    let refused = Pair { first: full.clone(), second: full, written: 0 };
    [("groups", halves, 0), ("refused", refused, 12)]
}
