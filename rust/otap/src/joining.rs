//! What the office joins: two requests that wait, under one header; with the feature `office`.

use crate::answer::{bit, byte, half, Refusal};
use crate::calls::OfficeCalls;
use crate::kinds::{Handheld, Sizes, Vehicle};
use core::fmt;

/// A join buffer for a hand-held's request has at least so many bytes.
pub const JOIN_ROOM: usize = Handheld::LONGEST_MESSAGE;
/// A join buffer for a vehicle's request has at least so many bytes.
pub const VEHICLE_JOIN_ROOM: usize = Vehicle::LONGEST_MESSAGE;

/// Joins two requests to a hand-held: writes one header and the settings of both, as they were received, to the start of the buffer.
///
/// A set that takes the first and then the second takes what was written, and holds the same; one that lacks room for
/// either refuses all of it.
///
/// Refused with 15; then 12, 13, 14, 1, and 3 or 4 for the first request, 4 too for an FF item; the same for the second;
/// then 4 for two coding types or over 255 settings together, and 12 where the joined request would be over 4,096 bytes.
/// Nothing is written then. Room in a set's tables is not asked for: [`Store::judge`](crate::Store::judge) tells.
///
/// ```
/// # fn main() -> Result<(), Box<dyn std::error::Error>> {
/// use otap::{join, NotJoined, Outcome, Refusal, Store, JOIN_ROOM, REPLY_ROOM, STORE_SIZE};
/// // Home numbers NZI 15, NP 806; and the scan channels replaced by 241 and 640.
/// let first = [2, 2, 0, 10, 8, 7, 8, 1, 0xCD, 0, 5, 0x07, 0xE4, 0xC0];
/// let second = [2, 2, 0, 12, 8, 7, 8, 1, 0xCE, 0, 7, 0xC0, 2, 0x0F, 0x12, 0x80];
/// let mut buffer = [0; JOIN_ROOM];
/// let joined = join(&first, &second, &mut buffer)?;
/// // Here it is sent: two settings under one header.
/// assert_eq!(joined[..8], [2, 2, 0, 18, 8, 7, 8, 2]);
/// assert_eq!(joined[8..], [&first[8..], &second[8..]].concat());
///
/// let mut bytes = [0; STORE_SIZE];
/// let mut store = Store::start(&mut bytes)?;
/// assert_eq!(store.commit(joined, &mut [0; REPLY_ROOM]).outcome, Outcome::Taken);
/// assert!(store.channels()?.eq([241, 640]));
///
/// // A request with an FF item is not joined.
/// let last = [2, 2, 0, 8, 8, 7, 8, 1, 0xFF, 0, 3, 0];
/// let refused = NotJoined { refusal: Refusal::BadField, failed_id: 1, second: true };
/// assert_eq!(join(&first, &last, &mut buffer), Err(refused));
/// # Ok(())
/// # }
/// ```
pub fn join<'b>(first: &[u8], second: &[u8], buffer: &'b mut [u8]) -> Result<&'b [u8], NotJoined> {
    join_for::<Handheld>(first, second, buffer)
}

/// The same of two requests to a vehicle: the joined one, and the buffer, may have 8,192 bytes.
///
/// ```
/// use otap::{join, join_vehicle, JOIN_ROOM, VEHICLE_JOIN_ROOM};
/// // 1,023 deletes of channel 241, three times: 1,540 bytes each, and 4,620 under one header.
/// let mut deletes = b"\xCE\x06\x03\x83\xFF".to_vec();
/// deletes.extend(b"\x0F\x10\xF1".repeat(511));
/// deletes.extend(b"\x0F\x1F");
/// let request = |count: u8| [&[2, 2, 0, 0, 8, 7, 8, count], &deletes.repeat(count.into())[..]].concat();
/// let (first, second) = (request(2), request(1));
/// assert!(join(&first, &second, &mut [0; JOIN_ROOM]).is_err_and(|no| no.refusal.number() == 12));
/// let mut buffer = [0; VEHICLE_JOIN_ROOM];
/// assert_eq!(join_vehicle(&first, &second, &mut buffer).map(|joined| joined.len()), Ok(4_628));
/// ```
pub fn join_vehicle<'b>(
    first: &[u8],
    second: &[u8],
    buffer: &'b mut [u8],
) -> Result<&'b [u8], NotJoined> {
    join_for::<Vehicle>(first, second, buffer)
}

fn join_for<'b, K: OfficeCalls>(
    first: &[u8],
    second: &[u8],
    buffer: &'b mut [u8],
) -> Result<&'b [u8], NotJoined> {
    let packed = K::join(first, second, buffer);
    match byte(packed, 0) {
        // Crate `otap_office` proves that the length is within the buffer; `get` does not rely on it.
        0 => Ok(buffer.get(..half(packed, 16)).unwrap_or_default()),
        number => Err(NotJoined {
            refusal: Refusal::from_number(number),
            failed_id: byte(packed, 8),
            second: bit(packed, 32),
        }),
    }
}

/// Why two requests were not joined: no byte of the buffer was touched.
#[derive(Clone, Copy, Debug, PartialEq, Eq)]
pub struct NotJoined {
    /// What is wrong.
    pub refusal: Refusal,
    /// The first setting at fault, counted from 1 in its own request; 0 where none is named.
    pub failed_id: u8,
    /// Whether the second request is at fault; otherwise it is the first, or neither by itself.
    pub second: bool,
}

impl fmt::Display for NotJoined {
    fn fmt(&self, to: &mut fmt::Formatter) -> fmt::Result {
        self.refusal.fmt(to)?;
        if self.failed_id != 0 {
            write!(to, ", in setting {}", self.failed_id)?;
        }
        let second = if self.second { ", of the second request" } else { "" };
        to.write_str(second)
    }
}

impl core::error::Error for NotJoined {}
