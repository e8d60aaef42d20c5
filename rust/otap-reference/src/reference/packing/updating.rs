//! The calls for short updates.

use super::packed;

/// The check, in 32 bits: yes 8.
pub fn packed_check(answer: Result<bool, u8>) -> u64 {
    packed(answer, |yes| vec![(yes.into(), 8)])
}

/// The proposer, as an export: length 16 to 31.
pub fn packed_proposal(answer: Result<usize, u8>) -> u64 {
    packed(answer, |length| vec![(length as u32, 16)])
}
