//! What the set answers to a query: a report, one message at a time.

use crate::answer::{bits, byte, half, Refusal};
use crate::kinds::{Handheld, Kind, Sizes};
use crate::store::Set;

/// A report buffer of a hand-held has at least so many bytes; [`Set::REPORT_ROOM`] is of either kind.
pub const REPORT_ROOM: usize = Handheld::LONGEST_MESSAGE;

/// A message of the report that answers a query.
#[derive(Clone, Copy, Debug, PartialEq, Eq)]
pub struct Report<'b> {
    /// How many messages the report has: their indexes are 1 to this.
    pub total: u32,
    /// This one, at the start of the buffer lent.
    pub message: &'b [u8],
}

impl<'b> Report<'b> {
    /// 0 to 7 are the number, 8 to 15 the total, 16 to 31 the length. Here 16 is not that of an export.
    fn unpack(packed: u64, buffer: &'b [u8]) -> Result<Report<'b>, Refusal> {
        match byte(packed, 0) {
            0 => Ok(Report {
                total: bits(packed, 8, 8),
                // The archive's contracts say that the length is within the buffer; `get` does not rely on it.
                message: buffer.get(..half(packed, 16)).unwrap_or_default(),
            }),
            16 => Err(Refusal::NoSuchMessage),
            number => Err(Refusal::from_number(number)),
        }
    }
}

impl<K: Kind> Set<'_, K> {
    /// Answers a query: writes the message of this index, from 1, to the start of the buffer.
    ///
    /// Refused with 15, 11, 12, 13, 14, 1, 4, then 16 where the report has no such message; nothing is written then.
    /// Here 1 has no reply either. A query is no request: [`Set::commit`] refuses it with 14.
    ///
    /// ```
    /// # fn main() -> Result<(), otap::Refusal> {
    /// use otap::{Outcome, Refusal, Store, REPLY_ROOM, REPORT_ROOM, STORE_SIZE};
    /// let (mut bytes, mut buffer) = ([0; STORE_SIZE], [0; REPORT_ROOM]);
    /// let mut store = Store::start(&mut bytes)?;
    /// // Replaces the scan channels by 241 and 640.
    /// let message = [2, 2, 0, 12, 8, 7, 8, 1, 0xCE, 0, 7, 0xC0, 2, 0x0F, 0x12, 0x80];
    /// assert_eq!(store.commit(&message, &mut [0; REPLY_ROOM]).outcome, Outcome::Taken);
    /// // The office asks for the scan channels, CE.
    /// let query = [2, 2, 0, 5, 8, 7, 0x0A, 1, 0xCE];
    /// let (mut index, mut last) = (1, 1);
    /// while index <= last {
    ///     let report = store.report(&query, index, &mut buffer)?;
    ///     // Here it is sent: message 1 of 1, with two parameters.
    ///     assert_eq!(report.message[..10], [2, 2, 0, 16, 8, 7, 0x0B, 1, 1, 2]);
    ///     assert_eq!(report.message[10..], [0x8E, 0, 0x0F, 0x10, 0, 0x8E, 0, 0x28, 0, 1]);
    ///     last = report.total;
    ///     index += 1;
    /// }
    /// assert_eq!(store.report(&query, index, &mut buffer), Err(Refusal::NoSuchMessage));
    /// # Ok(())
    /// # }
    /// ```
    ///
    /// The messages of one report are of one store as long as nothing is committed between them. A borrow that is kept
    /// until the last one is written sees to it:
    ///
    /// ```compile_fail,E0502
    /// # fn main() -> Result<(), otap::Refusal> {
    /// # use otap::{Store, REPLY_ROOM, REPORT_ROOM, STORE_SIZE};
    /// # let (mut bytes, mut buffer) = ([0; STORE_SIZE], [0; REPORT_ROOM]);
    /// # let mut store = Store::start(&mut bytes)?;
    /// # let query = [2, 2, 0, 5, 8, 7, 0x0A, 1, 0xCE];
    /// let asked = &store;
    /// asked.report(&query, 1, &mut buffer)?;
    /// store.commit(&[], &mut [0; REPLY_ROOM]);
    /// asked.report(&query, 2, &mut buffer)?;
    /// # Ok(())
    /// # }
    /// ```
    pub fn report<'b>(
        &self,
        query: &[u8],
        index: u32,
        buffer: &'b mut [u8],
    ) -> Result<Report<'b>, Refusal> {
        let packed = K::report(query, index, self.bytes(), buffer);
        Report::unpack(packed, buffer)
    }
}
