//! Short updates, by the archive and by the reference, which must say and write the same.

use crate::pair::{inverted, patterned};
use crate::sets::Tried;
use otap::{Refusal, REPLY_ROOM};
use otap_reference::layout;
use otap_reference::reference::packing::{packed_check, packed_proposal};
use otap_reference::reference::tables::Set;
use otap_reference::reference::updating::{check_update, propose};

/// Bytes that are lent as a store, and the set that they keep, if they are one.
#[derive(Clone)]
pub struct Lent {
    pub bytes: Vec<u8>,
    pub set: Option<Set>,
}

impl Lent {
    pub fn of(set: &Set) -> Lent {
        Lent { bytes: layout::bytes(set), set: Some(set.clone()) }
    }

    /// Of bytes that no set is kept by.
    pub fn no_store(bytes: Vec<u8>) -> Lent {
        Lent { bytes, set: None }
    }
}

/// What the check says: every bit, the same by the face, and both stores as they were.
pub fn checked<K: Tried>(first: &Lent, second: &Lent, message: &[u8]) -> Result<bool, u8> {
    let before = [first.bytes.clone(), second.bytes.clone()];
    let wanted = check_update(first.set.as_ref(), second.set.as_ref(), message);
    let packed = K::otap_check_update(&first.bytes, &second.bytes, message);
    assert_eq!(packed, packed_check(wanted), "{message:02X?}");
    let said = K::updates(&first.bytes, &second.bytes, message).map_err(Refusal::number);
    assert_eq!(said, wanted, "{message:02X?}");
    assert!([&first.bytes, &second.bytes] == [&before[0], &before[1]], "neither store changes");
    if wanted.is_ok() {
        assert_eq!(said, Ok(leads_to::<K>(first, second, message)), "{message:02X?}");
    }
    said
}

/// Whether committing the message, which is a request, takes the one to the other but for the kept hash: by the set's own archive, without the check.
fn leads_to<K: Tried>(first: &Lent, second: &Lent, message: &[u8]) -> bool {
    let mut bytes = first.bytes.clone();
    let is_request = message.get(6).is_some_and(|byte| byte & 7 == 0);
    let mut store = otap::Set::<K>::lent(&mut bytes);
    let number = store.commit(message, &mut [0; REPLY_ROOM]).number();
    is_request && number == 0 && bytes[11..] == second.bytes[11..]
}

/// The proposal or its refusal: every bit, the whole buffer, the same by the face over other bytes, and both stores as they were.
pub fn proposed_into<K: Tried>(first: &Lent, second: &Lent, room: usize) -> Result<Vec<u8>, u8> {
    let before = [first.bytes.clone(), second.bytes.clone()];
    let (mut expected, mut buffer) = (patterned(room), patterned(room));
    let wanted = propose(first.set.as_ref(), second.set.as_ref(), &mut expected);
    let packed = K::otap_propose(&first.bytes, &second.bytes, &mut buffer);
    assert_eq!(packed, packed_proposal(wanted));
    assert!(buffer == expected, "the whole buffer");
    let mut other = inverted(room);
    let said = K::propose(&first.bytes, &second.bytes, &mut other).map(<[u8]>::to_vec);
    let said = said.map_err(Refusal::number);
    let length = wanted.unwrap_or(0);
    assert_eq!(said, wanted.map(|length| expected[..length].to_vec()));
    assert!(other[length..] == inverted(room)[length..], "behind the proposal");
    assert!([&first.bytes, &second.bytes] == [&before[0], &before[1]], "neither store changes");
    said
}

/// The same with a buffer of the least room.
pub fn proposed<K: Tried>(first: &Lent, second: &Lent) -> Result<Vec<u8>, u8> {
    proposed_into::<K>(first, second, K::LONGEST_MESSAGE)
}
