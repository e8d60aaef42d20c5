//! What the office checks and proposes: a request from what a set holds to what it should hold; with the feature `office`.

use crate::answer::{bit, byte, half, Refusal};
use crate::calls::OfficeCalls;
use crate::kinds::{Handheld, Sizes, Vehicle};

/// A proposal buffer for a hand-held has at least so many bytes.
pub const PROPOSAL_ROOM: usize = Handheld::LONGEST_MESSAGE;
/// A proposal buffer for a vehicle has at least so many bytes.
pub const VEHICLE_PROPOSAL_ROOM: usize = Vehicle::LONGEST_MESSAGE;

/// Whether a request is an update between two stores of a hand-held: the first would take it and would then hold what the second holds, the kept
/// hashes aside. Neither store changes.
///
/// Refused with 11 where the first are not the bytes of a store, then where the second are none. Everything else is an answer: a request that the first
/// would refuse is no update, and nor is a message that is no request, however equal the stores.
///
/// ```
/// # fn main() -> Result<(), otap::Refusal> {
/// use otap::{updates, Refusal, Store, REPLY_ROOM, STORE_SIZE};
/// let (mut held, mut wanted) = ([0; STORE_SIZE], [0; STORE_SIZE]);
/// Store::start(&mut held)?;
/// // Replaces the scan channels by 241 and 640; and adds channel 241.
/// let replace = [2, 2, 0, 12, 8, 7, 8, 1, 0xCE, 0, 7, 0xC0, 2, 0x0F, 0x12, 0x80];
/// let add = [2, 2, 0, 11, 8, 7, 8, 1, 0xCE, 0, 6, 0x40, 1, 0x0F, 0x1F];
/// Store::start(&mut wanted)?.commit(&replace, &mut [0; REPLY_ROOM]);
/// assert_eq!(updates(&held, &wanted, &replace), Ok(true));
/// assert_eq!(updates(&held, &wanted, &add), Ok(false));
/// assert_eq!(updates(&held, &wanted, &replace[..9]), Ok(false));
/// assert_eq!(updates(&held, &[], &replace), Err(Refusal::NotAStore));
/// # Ok(())
/// # }
/// ```
pub fn updates(first: &[u8], second: &[u8], request: &[u8]) -> Result<bool, Refusal> {
    updates_for::<Handheld>(first, second, request)
}

/// The same of two stores of a vehicle.
///
/// ```
/// use otap::{updates, updates_vehicle, Refusal, STORE_SIZE};
/// // What is no store of the one kind may be one of the other.
/// assert_eq!(updates_vehicle(&[0; STORE_SIZE], &[0; STORE_SIZE], &[]), Err(Refusal::NotAStore));
/// ```
pub fn updates_vehicle(first: &[u8], second: &[u8], request: &[u8]) -> Result<bool, Refusal> {
    updates_for::<Vehicle>(first, second, request)
}

fn updates_for<K: OfficeCalls>(
    first: &[u8],
    second: &[u8],
    request: &[u8],
) -> Result<bool, Refusal> {
    let packed = K::check_update(first, second, request);
    match byte(packed, 0) {
        0 => Ok(bit(packed, 8)),
        number => Err(Refusal::from_number(number)),
    }
}

/// Proposes a request between two stores of a hand-held whose tables differ in one part of an export alone: writes the second's part to the start of the
/// buffer. Neither store changes.
///
/// Where the first store takes it, it is an update. It takes every [`Part`](crate::Part) but for those of slots, which it may refuse with 2: these go slot by
/// slot, and one may grow before a later one shrinks.
///
/// Refused with 11 for the first store, 11 for the second, 15, then 19 where the tables of no part differ, or those of several. Nothing is written then.
///
/// ```
/// # fn main() -> Result<(), otap::Refusal> {
/// use otap::{propose, updates, Refusal, Store, PROPOSAL_ROOM, REPLY_ROOM, STORE_SIZE};
/// let (mut held, mut wanted) = ([0; STORE_SIZE], [0; STORE_SIZE]);
/// Store::start(&mut held)?;
/// // Adds channel 241, and keeps the hash 12 34 56 78.
/// let add = *b"\x02\x02\0\x13\x08\x07\x08\x02\xCE\0\x06\x40\x01\x0F\x1F\xFF\0\x07\x01\x12\x34\x56\x78";
/// Store::start(&mut wanted)?.commit(&add, &mut [0; REPLY_ROOM]);
/// let mut buffer = [0; PROPOSAL_ROOM];
/// let request = propose(&held, &wanted, &mut buffer)?;
/// // Here it is sent: the scan channels replaced by 241.
/// assert_eq!(request, [2, 2, 0, 11, 8, 7, 8, 1, 0xCE, 0, 6, 0xC0, 1, 0x0F, 0x1F]);
/// assert_eq!(updates(&held, &wanted, request), Ok(true));
/// assert_eq!(propose(&held, &held, &mut buffer), Err(Refusal::NoSinglePart));
/// # Ok(())
/// # }
/// ```
pub fn propose<'b>(first: &[u8], second: &[u8], buffer: &'b mut [u8]) -> Result<&'b [u8], Refusal> {
    propose_for::<Handheld>(first, second, buffer)
}

/// The same of two stores of a vehicle, which takes every proposal: the buffer has at least 8,192 bytes.
///
/// ```
/// use otap::{propose_vehicle, Refusal, VEHICLE_PROPOSAL_ROOM};
/// // The stores come before the buffer.
/// assert_eq!(propose_vehicle(&[], &[], &mut [0; 1]), Err(Refusal::NotAStore));
/// assert_eq!(VEHICLE_PROPOSAL_ROOM, 8_192);
/// ```
pub fn propose_vehicle<'b>(
    first: &[u8],
    second: &[u8],
    buffer: &'b mut [u8],
) -> Result<&'b [u8], Refusal> {
    propose_for::<Vehicle>(first, second, buffer)
}

fn propose_for<'b, K: OfficeCalls>(
    first: &[u8],
    second: &[u8],
    buffer: &'b mut [u8],
) -> Result<&'b [u8], Refusal> {
    let packed = K::propose(first, second, buffer);
    match byte(packed, 0) {
        // Crate `otap_office` proves that the length is within the buffer; `get` does not rely on it.
        0 => Ok(buffer.get(..half(packed, 16)).unwrap_or_default()),
        number => Err(Refusal::from_number(number)),
    }
}
