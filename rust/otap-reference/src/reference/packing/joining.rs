//! The join call, whose refusals have more than a number.

use super::numbered;
use crate::reference::joining::Joined;
use crate::reference::numbers::TAKEN;

/// Failed ID 8 to 15, length 16 to 31, the second request at fault 32.
pub fn packed_join(answer: Joined) -> u64 {
    match answer {
        Ok(length) => numbered(TAKEN, vec![(length as u32, 16)]),
        Err(refused) => {
            numbered(refused.number, vec![(refused.failed.into(), 8), (refused.second.into(), 32)])
        }
    }
}
