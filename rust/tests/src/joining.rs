//! Two requests joined, by the archive and by the reference, which must write and say the same.

use crate::pair::{inverted, patterned, Pair};
use crate::sets::Tried;
use otap::NotJoined;
use otap_reference::reference::joining::{join, Refused};
use otap_reference::reference::packing::packed_join;

/// The joined request or why there is none: every bit, the whole buffer, and the same by the face over other bytes.
pub fn join_into<K: Tried>(first: &[u8], second: &[u8], room: usize) -> Result<Vec<u8>, Refused> {
    let (mut expected, mut buffer) = (patterned(room), patterned(room));
    let wanted = join(first, second, K::LIMITS, &mut expected);
    let packed = K::otap_join(first, second, &mut buffer);
    assert_eq!(packed, packed_join(wanted), "{first:02X?} {second:02X?}");
    assert!(buffer == expected, "the whole buffer of {first:02X?} {second:02X?}");
    let mut other = inverted(room);
    let said = K::join(first, second, &mut other).map(<[u8]>::to_vec).map_err(refused);
    let length = wanted.unwrap_or(0);
    assert_eq!(
        said,
        wanted.map(|length| expected[..length].to_vec()),
        "{first:02X?} {second:02X?}"
    );
    assert!(other[length..] == inverted(room)[length..], "behind {first:02X?} {second:02X?}");
    said
}

/// The same with a buffer of the least room.
pub fn join_by_both<K: Tried>(first: &[u8], second: &[u8]) -> Result<Vec<u8>, Refused> {
    join_into::<K>(first, second, K::LONGEST_MESSAGE)
}

/// What the face refused, as the reference has it.
fn refused(refused: NotJoined) -> Refused {
    let NotJoined { refusal, failed_id, second } = refused;
    Refused { number: refusal.number(), failed: failed_id, second }
}

impl<K: Tried> Pair<K> {
    /// Number and failed ID of two requests that may be joined: those of both in turn, the second's counted through; and the store is the same, or stays.
    pub fn told_joined(&mut self, first: &[u8], second: &[u8]) -> (u8, u8) {
        let before = self.bytes.clone();
        let mut turned = self.clone();
        let mut wanted = turned.told(first);
        if wanted.0 == 0 {
            let (number, failed) = turned.told(second);
            wanted = (number, if number == 0 { 0 } else { first[7] + failed });
        }
        let message = join_by_both::<K>(first, second).expect("they may be joined");
        assert_eq!(self.told(&message), wanted, "{first:02X?} {second:02X?}");
        let left = if wanted.0 == 0 { turned.bytes } else { before };
        assert!(self.bytes == left, "the store after {first:02X?} {second:02X?}");
        wanted
    }
}
