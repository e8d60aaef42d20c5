//! What the settings menu asks for: how many line contacts and channels a set holds (document 02, A1).

use super::numbers::{NOT_A_STORE, TAKEN};
use super::tables::Set;

/// The answer; a refusal has both counts 0.
#[derive(Clone, Copy, Debug, PartialEq, Eq)]
pub struct Counts {
    pub number: u8,
    pub lines: usize,
    pub channels: usize,
}

/// The call: 0 with what the set holds, or 11. It writes nothing.
pub fn counts(is_store: bool, set: &Set) -> Counts {
    if !is_store {
        return Counts { number: NOT_A_STORE, lines: 0, channels: 0 };
    }
    let (lines, channels) = set.counts();
    Counts { number: TAKEN, lines, channels }
}

impl Set {
    /// Line contacts and channels held.
    pub fn counts(&self) -> (usize, usize) {
        (self.tables.lines.len(), self.tables.channels.len())
    }

    /// Line contacts and channels that there is still room for.
    pub fn free(&self) -> (usize, usize) {
        let (lines, channels) = self.counts();
        (self.limits.lines - lines, self.limits.channels - channels)
    }
}

#[cfg(test)]
mod tests {
    use super::*;
    use crate::reference::by_hand::number;
    use crate::reference::limits::HANDHELD;
    use crate::reference::message::request;
    use crate::reference::settings::{LineEntry, LineFlags, Operation, Setting};

    fn lines(operation: Operation, numbers: std::ops::Range<u8>) -> Setting {
        let entry = |number| LineEntry { digits: vec![number / 10, number % 10], text: Vec::new() };
        let entries = numbers.map(entry).collect();
        Setting::Lines { operation, flags: LineFlags::default(), entries }
    }

    fn channels(operation: Operation, channels: &[u16]) -> Setting {
        Setting::Channels { operation, channels: channels.to_vec() }
    }

    /// The number of a request with one setting, and the counts after it.
    fn after(set: &mut Set, setting: Setting) -> (u8, usize, usize) {
        let (number, _) = number(set, &request(&[setting.write()]));
        let (lines, channels) = set.counts();
        (number, lines, channels)
    }

    #[test]
    fn each_operation_on_lines() {
        let mut set = Set::fresh(HANDHELD);
        assert_eq!(counts(true, &set), Counts { number: 0, lines: 0, channels: 0 });
        assert_eq!(after(&mut set, lines(Operation::Add, 0..32)), (0, 32, 0));
        assert_eq!(set.free(), (0, 64));
        assert_eq!(after(&mut set, lines(Operation::Add, 32..33)), (2, 32, 0));
        assert_eq!(after(&mut set, lines(Operation::Add, 5..6)), (0, 32, 0));
        assert_eq!(after(&mut set, lines(Operation::Delete, 40..41)), (0, 32, 0));
        assert_eq!(after(&mut set, lines(Operation::Delete, 3..4)), (0, 31, 0));
        assert_eq!(after(&mut set, lines(Operation::Add, 3..4)), (0, 32, 0));
        assert_eq!(after(&mut set, lines(Operation::Replace, 0..0)), (0, 0, 0));
        assert_eq!(set.free(), (32, 64));
    }

    #[test]
    fn each_operation_on_channels() {
        let mut set = Set::fresh(HANDHELD);
        let many: Vec<u16> = (0..64).map(|place| if place % 2 == 0 { 241 } else { 640 }).collect();
        assert_eq!(after(&mut set, channels(Operation::Replace, &many)), (0, 0, 64));
        assert_eq!(after(&mut set, channels(Operation::Add, &[241])), (2, 0, 64));
        assert_eq!(after(&mut set, channels(Operation::Delete, &[300])), (0, 0, 64));
        assert_eq!(after(&mut set, channels(Operation::Delete, &[241])), (0, 0, 32));
        assert_eq!(after(&mut set, channels(Operation::Add, &[640, 640])), (0, 0, 34));
        assert_eq!(set.free(), (32, 30));
        assert_eq!(after(&mut set, channels(Operation::Replace, &[])), (0, 0, 0));
    }

    #[test]
    fn no_store_has_no_counts() {
        let mut set = Set::fresh(HANDHELD);
        after(&mut set, channels(Operation::Replace, &[241]));
        assert_eq!(counts(true, &set), Counts { number: 0, lines: 0, channels: 1 });
        assert_eq!(counts(false, &set), Counts { number: 11, lines: 0, channels: 0 });
    }
}
