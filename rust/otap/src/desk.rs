//! The plain engine: a desk emulator of a hand-held, over an area that the caller lends; with the feature `desk`.

use crate::answer::{Answer, Refusal};
use crate::calls::desk as calls;
use crate::row::{Row, Table};

/// An area has exactly so many bytes.
pub const AREA_SIZE: usize = 32_768;
/// A scratch for the rows of a desk has at least so many bytes.
pub const DESK_SCRATCH_ROOM: usize = 64;

/// A desk emulator of one hand-held, for the training room. It has no tables: its area keeps the requests that were taken, one behind the other, and it keeps
/// nothing outside the bytes lent.
///
/// What it is asked, it reads from the requests. So it answers, replies and shows rows as a [`Store`](crate::Store) that is sent the same messages, for as long
/// as the area lasts; a request that would pass the area's end is refused with 18, and is not kept. Every call costs time that grows with the square of what
/// is kept.
///
/// ```
/// # fn main() -> Result<(), otap::Refusal> {
/// use otap::{Desk, Outcome, Table, AREA_SIZE, DESK_SCRATCH_ROOM, REPLY_ROOM};
/// let (mut area, mut reply, mut scratch) = ([0; AREA_SIZE], [0; REPLY_ROOM], [0; DESK_SCRATCH_ROOM]);
/// let mut desk = Desk::start(&mut area)?;
/// // Adds PABX 2345 with the name A1, in eight-bit characters.
/// let message = *b"\x02\x02\0\x0F\x08\x04\x08\x01\xCA\0\x0A\x42\x01\x23\x45\xFFA1\0";
/// assert_eq!(desk.take(&message, &mut reply).outcome, Outcome::Taken);
/// assert_eq!(desk.row(Table::Lines, 0, &mut scratch)?.bytes(), b"\0A\01");
/// // The request stands in the area as it came: 21 bytes are used, a length and the request.
/// assert_eq!(desk.bytes()[..6], [0, 0, 0, 21, 0, 19]);
/// assert_eq!(desk.bytes()[6..25], message);
/// # Ok(())
/// # }
/// ```
#[derive(Debug)]
pub struct Desk<'s> {
    area: &'s mut [u8],
}

impl<'s> Desk<'s> {
    /// Makes 32,768 bytes a fresh area, whatever they held; another length is refused with 11.
    ///
    /// ```
    /// use otap::{Desk, Refusal, AREA_SIZE};
    /// assert!(Desk::start(&mut [0xFF; AREA_SIZE]).is_ok());
    /// assert_eq!(Desk::start(&mut [0; 100]).err(), Some(Refusal::NotAStore));
    /// ```
    pub fn start(area: &'s mut [u8]) -> Result<Self, Refusal> {
        match calls::start(area) {
            0 => Ok(Desk::lent(area)),
            number => Err(Refusal::from_word(number)),
        }
    }

    /// Bytes that may be an area, as those of a file: an area, or refused with 11.
    ///
    /// ```
    /// # fn main() -> Result<(), otap::Refusal> {
    /// use otap::{Desk, Refusal, AREA_SIZE};
    /// let mut saved = [0; AREA_SIZE];
    /// // A fresh area is all 0; and no byte behind what is used is another.
    /// assert!(Desk::open(&mut saved).is_ok());
    /// saved[100] = 1;
    /// assert_eq!(Desk::open(&mut saved).err(), Some(Refusal::NotAStore));
    /// # Ok(())
    /// # }
    /// ```
    pub fn open(area: &'s mut [u8]) -> Result<Self, Refusal> {
        let desk = Desk::lent(area);
        // Whether there is such a row does not matter.
        match desk.check_row(Table::Lines, 0, &[0; DESK_SCRATCH_ROOM]) {
            Ok(()) | Err(Refusal::NoSuchRow) => Ok(desk),
            Err(refusal) => Err(refusal),
        }
    }

    /// Bytes that were an area before, and are not looked at now; every call judges them and refuses others with 11.
    pub fn lent(area: &'s mut [u8]) -> Self {
        Desk { area }
    }

    /// The area's bytes, to be kept or read.
    pub fn bytes(&self) -> &[u8] {
        self.area
    }

    /// Takes one message, whole or not at all, and writes the reply to the start of the buffer, as [`Store::commit`](crate::Set::commit) does.
    ///
    /// A request that is taken is kept in the area. What is refused is not, and a result query is answered and not kept. Last comes 18,
    /// [`Refusal::AreaFull`]: the request would be taken, but passes the area's end; a shorter one may still be taken.
    ///
    /// ```
    /// # fn main() -> Result<(), otap::Refusal> {
    /// use otap::{Desk, Outcome, Refusal, AREA_SIZE, REPLY_ROOM};
    /// let (mut area, mut reply) = ([0; AREA_SIZE], [0; REPLY_ROOM]);
    /// let mut desk = Desk::start(&mut area)?;
    /// // Adds 63 quick texts of 23 letters: 3,099 bytes, and 3,101 with their length.
    /// let mut message = b"\x02\x02\0\0\x08\x07\x08\x01\xCC\x0C\x12\x7F".to_vec();
    /// for index in 0..63 {
    ///     message.push(index);
    ///     message.extend(b"\0A".repeat(23));
    ///     message.extend(b"\0\0");
    /// }
    /// let mut kept = 0;
    /// while desk.take(&message, &mut reply).outcome == Outcome::Taken {
    ///     kept += 1;
    /// }
    /// assert_eq!(kept, (AREA_SIZE - 4) / 3_101);
    /// let answer = desk.take(&message, &mut reply);
    /// assert_eq!(answer.outcome, Outcome::Refused(Refusal::AreaFull));
    /// assert_eq!((answer.number(), answer.reply), (18, &[][..]));
    /// # Ok(())
    /// # }
    /// ```
    pub fn take<'r>(&mut self, message: &[u8], reply: &'r mut [u8]) -> Answer<'r> {
        let packed = calls::take(message, self.area, reply);
        Answer::unpack(packed, reply)
    }

    /// What the screen draws for a row, the same bytes as [`Store::row`](crate::Set::row) gives; refused with 15, 11 or 17.
    ///
    /// Text or number, it is written at the scratch's start: the row borrows the scratch alone, and what is taken later does not reach it.
    ///
    /// ```
    /// # fn main() -> Result<(), otap::Refusal> {
    /// use otap::{Desk, Outcome, Refusal, Slice, Table, AREA_SIZE, DESK_SCRATCH_ROOM, REPLY_ROOM};
    /// // Both name group 32820900, in slot 0: first A1, then B2.
    /// const NAME: [u8; 22] = *b"\x02\x02\0\x12\x08\x07\x08\x01\xD1\0\x0D\x60\0\x10\0\x01\0A\01\0\0";
    /// const RENAME: [u8; 22] = *b"\x02\x02\0\x12\x08\x07\x08\x01\xD1\0\x0D\x60\0\x10\0\x01\0B\02\0\0";
    /// let (mut area, mut reply, mut scratch) = ([0; AREA_SIZE], [0; REPLY_ROOM], [0; DESK_SCRATCH_ROOM]);
    /// let mut desk = Desk::start(&mut area)?;
    /// assert_eq!(desk.row(Table::Groups, 0, &mut scratch), Err(Refusal::NoSuchRow));
    /// assert_eq!(desk.take(&NAME, &mut reply).outcome, Outcome::Taken);
    /// let row = desk.row(Table::Groups, 0, &mut scratch)?;
    /// assert_eq!(desk.take(&RENAME, &mut reply).outcome, Outcome::Taken);
    /// assert_eq!((row.bytes(), row.slice(), row.offset()), (&b"\0A\01"[..], Slice::Scratch, 0));
    /// assert_eq!(desk.row(Table::Groups, 0, &mut scratch)?.bytes(), b"\0B\02");
    /// # Ok(())
    /// # }
    /// ```
    pub fn row<'a>(
        &self,
        table: Table,
        row: u32,
        scratch: &'a mut [u8],
    ) -> Result<Row<'a>, Refusal> {
        let packed = calls::row_part(table.number(), row, self.area, scratch);
        // A refusal's part is 0; only then is the number asked for.
        if packed == 0 {
            self.check_row(table, row, scratch)?;
        }
        Ok(Row::unpack(packed, &[], scratch))
    }

    /// Whether the screen has such a row, without writing the scratch; refused as [`Desk::row`] is.
    pub fn check_row(&self, table: Table, row: u32, scratch: &[u8]) -> Result<(), Refusal> {
        match calls::row_number(table.number(), row, self.area, scratch) {
            0 => Ok(()),
            number => Err(Refusal::from_word(number)),
        }
    }
}
