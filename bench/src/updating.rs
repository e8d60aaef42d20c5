//! Two stores for the office to update between: by the archive and by plain Rust.

use crate::messages::{full_set, of_lines};
use crate::sides::{answered, Call};
use otap::{Refusal, REPLY_ROOM};
use otap_reference::layout::{self, fast};
use otap_reference::reference::commit::commit;
use otap_reference::reference::limits::HANDHELD;
use otap_reference::reference::tables::Set;
use otap_reference::reference::updating::{check_update, propose};
use std::hint::black_box;

/// What a full store is to become, a request that makes it so, and how many bytes have to be proposed.
#[derive(Clone)]
pub struct Update {
    set: Set,
    bytes: Vec<u8>,
    pub request: Vec<u8>,
    written: usize,
}

impl Update {
    /// Whether its bytes are a store, by plain Rust.
    pub fn is_store(&self) -> bool {
        fast::is_store(black_box(&self.bytes), self.set.limits)
    }

    /// The number of a check that has to say yes, by the face.
    pub fn rattle_checks(&self, bytes: &[u8]) -> u8 {
        let request = black_box(&self.request);
        let said = otap::updates(black_box(bytes), black_box(&self.bytes), request);
        answered(black_box(said).map_err(Refusal::number), true)
    }

    /// The same, by the reference.
    pub fn plain_checks(&self, set: &Set) -> u8 {
        let request = black_box(&self.request);
        answered(check_update(Some(black_box(set)), Some(black_box(&self.set)), request), true)
    }

    /// The number of a proposal, by the face.
    pub fn rattle_proposes(&self, bytes: &[u8], buffer: &mut [u8]) -> u8 {
        let proposed = otap::propose(black_box(bytes), black_box(&self.bytes), buffer);
        answered(black_box(proposed).map(<[u8]>::len).map_err(Refusal::number), self.written)
    }

    /// The same, by the reference.
    pub fn plain_proposes(&self, set: &Set, buffer: &mut [u8]) -> u8 {
        let proposed = propose(Some(black_box(set)), Some(black_box(&self.set)), buffer);
        answered(black_box(proposed), self.written)
    }
}

/// The full set after a request, and what the part of its lines has.
fn after(request: Vec<u8>) -> Update {
    let mut set = full_set(HANDHELD);
    assert_eq!(commit(&request, &mut set, &mut [0; REPLY_ROOM]).number, 0);
    let mut buffer = vec![0; HANDHELD.message];
    let written = propose(Some(&full_set(HANDHELD)), Some(&set), &mut buffer).unwrap_or(0);
    Update { bytes: layout::bytes(&set), set, request, written }
}

/// A name, a call and a number: a request full of lines that is checked, the part of the lines that is proposed for it, and equal stores, of which no part differs.
pub fn calls() -> [(&'static str, Call, u8); 3] {
    let lines = after(of_lines(HANDHELD));
    let full = full_set(HANDHELD);
    let equal = Update { bytes: layout::bytes(&full), set: full, request: Vec::new(), written: 0 };
    [
        ("check-update-lines", Call::CheckUpdate(lines.clone()), 0),
        ("propose-lines", Call::Propose(lines), 0),
        ("propose-equal", Call::Propose(equal), 19),
    ]
}
