//! A set's store, over bytes that the firmware lends: one face for both kinds of set.

use crate::answer::{byte, half, Answer, Refusal};
use crate::callers;
use crate::counts::Counts;
#[cfg(feature = "vehicle")]
use crate::kinds::Vehicle;
use crate::kinds::{Handheld, Kind, Sizes};
use crate::part::Part;
use crate::row::{Row, Table};
use core::marker::PhantomData;
use core::ops::Range;

/// A hand-held's store has exactly so many bytes; [`Set::STORE_SIZE`] is of either kind, and so are the others there.
pub const STORE_SIZE: usize = Handheld::STORE_SIZE;
/// A reply buffer has at least so many bytes.
pub const REPLY_ROOM: usize = 20;
/// An export buffer of a hand-held has at least so many bytes.
pub const EXPORT_ROOM: usize = Handheld::LONGEST_MESSAGE;
/// A scratch has at least so many bytes.
pub const SCRATCH_ROOM: usize = 36;
/// A message to a hand-held has at most so many bytes.
pub const LONGEST_MESSAGE: usize = Handheld::LONGEST_MESSAGE;

/// The settings of one set of either kind, [`Store`] or `VehicleStore`. It keeps nothing outside the bytes lent.
#[derive(Debug)]
pub struct Set<'s, K> {
    bytes: &'s mut [u8],
    kind: PhantomData<K>,
}

/// The settings of one hand-held.
pub type Store<'s> = Set<'s, Handheld>;

/// The settings of one vehicle set, with every call that [`Store`] has; only the sizes are others.
///
/// ```
/// # fn main() -> Result<(), otap::Refusal> {
/// use otap::{Outcome, Refusal, Store, VehicleStore, REPLY_ROOM};
/// let (mut bytes, mut reply) = ([0; VehicleStore::STORE_SIZE], [0; REPLY_ROOM]);
/// let mut store = VehicleStore::start(&mut bytes)?;
/// assert_eq!((store.counts()?.free_lines(), store.counts()?.free_channels()), (128, 256));
/// // Replaces the scan channels by 241, 65 times: one more than a hand-held has room for.
/// let mut message = b"\x02\x02\0\0\x08\x07\x08\x01\xCE\0\x66\xC0\x41".to_vec();
/// message.extend(b"\x0F\x10\xF1".repeat(32));
/// message.extend(b"\x0F\x1F");
/// assert_eq!(store.commit(&message, &mut reply).outcome, Outcome::Taken);
/// assert_eq!(store.channels()?.count(), 65);
/// // A vehicle's store is no hand-held's.
/// assert_eq!(Store::open(&mut bytes).err(), Some(Refusal::NotAStore));
/// # Ok(())
/// # }
/// ```
#[cfg(feature = "vehicle")]
pub type VehicleStore<'s> = Set<'s, Vehicle>;

/// The sizes of its kind.
impl<K: Sizes> Set<'_, K> {
    /// A store has exactly so many bytes.
    pub const STORE_SIZE: usize = K::STORE_SIZE;
    /// A message has at most so many bytes.
    pub const LONGEST_MESSAGE: usize = K::LONGEST_MESSAGE;
    /// An export buffer has at least so many bytes.
    pub const EXPORT_ROOM: usize = K::LONGEST_MESSAGE;
    /// A report buffer has at least so many bytes.
    pub const REPORT_ROOM: usize = K::LONGEST_MESSAGE;
    /// Room for so many line contacts.
    pub const MOST_LINES: usize = K::MOST_LINES;
    /// Room for so many channels.
    pub const MOST_CHANNELS: usize = K::MOST_CHANNELS;
    /// Bytes that all texts share, two a unit: a setting after which the texts held are more has no room. A vehicle has none, for each text has
    /// its place.
    ///
    /// ```
    /// assert_eq!(otap::Store::TEXT_BYTES, Some(4_096));
    /// ```
    pub const TEXT_BYTES: Option<usize> = K::TEXT_BYTES;

    /// The places of a table: every row that it has is one of them.
    ///
    /// ```
    /// use otap::{Store, Table};
    /// assert_eq!(Store::places(Table::Lines), 0..32);
    /// assert_eq!(Store::places(Table::StatusTexts), 32..128);
    /// ```
    pub fn places(table: Table) -> Range<u32> {
        table.places_with(K::MOST_LINES)
    }
}

impl<'s, K: Kind> Set<'s, K> {
    /// Makes as many bytes as a store has, 24,576 of a hand-held and 49,152 of a vehicle, a fresh store, whatever they held;
    /// another length is refused with 11.
    ///
    /// ```
    /// use otap::{Refusal, Store, STORE_SIZE};
    /// assert!(Store::start(&mut [0xFF; STORE_SIZE]).is_ok());
    /// assert_eq!(Store::start(&mut [0; 100]).err(), Some(Refusal::NotAStore));
    /// ```
    pub fn start(bytes: &'s mut [u8]) -> Result<Self, Refusal> {
        match K::start(bytes) {
            0 => Ok(Set::lent(bytes)),
            number => Err(Refusal::from_word(number)),
        }
    }

    /// Bytes that may be a store, as those from flash at power-on: a store, or refused with 11.
    ///
    /// ```
    /// # fn main() -> Result<(), otap::Refusal> {
    /// use otap::{Refusal, Store, STORE_SIZE};
    /// let mut saved = [0xFF; STORE_SIZE]; // empty flash
    /// assert_eq!(Store::open(&mut saved).err(), Some(Refusal::NotAStore));
    /// // What was saved is kept; only where it is no store, one is started.
    /// let store = match Store::open(&mut saved) {
    ///     Ok(kept) => kept,
    ///     Err(_) => Store::start(&mut saved)?,
    /// };
    /// assert_eq!(store.counts()?.free_lines(), otap::MOST_LINES);
    /// # Ok(())
    /// # }
    /// ```
    pub fn open(bytes: &'s mut [u8]) -> Result<Self, Refusal> {
        let store = Set::lent(bytes);
        store.counts()?;
        Ok(store)
    }

    /// Bytes that were a store before, and are not looked at now; every call judges them and refuses others with 11.
    pub fn lent(bytes: &'s mut [u8]) -> Self {
        Set { bytes, kind: PhantomData }
    }

    /// The store's bytes, to be kept.
    pub fn bytes(&self) -> &[u8] {
        self.bytes
    }

    /// Judges one message: the answer that [`Set::commit`] would give, with the reply that it would write; the store stays.
    ///
    /// A request that comes during a call is judged then, so that the user knows whether it will be taken and
    /// whether the set will start again, and committed after the call. The reply is not sent before that:
    /// with result 0 it says that the set has the settings. It carries the request's own hash already.
    ///
    /// ```
    /// # fn main() -> Result<(), otap::Refusal> {
    /// use otap::{Outcome, Store, REPLY_ROOM, STORE_SIZE};
    /// let mut bytes = [0; STORE_SIZE];
    /// let mut store = Store::start(&mut bytes)?;
    /// // Home numbers NZI 15, NP 806; then a last item: start again, reply, hash 12 34 56 78.
    /// let message = *b"\x02\x02\0\x12\x08\x07\x08\x02\xCD\0\x05\x07\xE4\xC0\xFF\0\x07\xC1\x12\x34\x56\x78";
    /// // The call goes on: the user is told, and nothing changes.
    /// let mut forecast = [0; REPLY_ROOM];
    /// let judged = store.judge(&message, &mut forecast);
    /// assert_eq!((judged.outcome, judged.reboot), (Outcome::Taken, true));
    /// // The call has ended, and the store is the same: what was judged good is taken, with that reply.
    /// let mut reply = [0; REPLY_ROOM];
    /// let answer = store.commit(&message, &mut reply);
    /// assert_eq!(answer, judged);
    /// assert_eq!(answer.reply[9..], [1, 0x12, 0x34, 0x56, 0x78]);
    /// # Ok(())
    /// # }
    /// ```
    ///
    /// What was judged is promised for the same store only. Here another request came between, and took the room.
    ///
    /// ```
    /// # fn main() -> Result<(), otap::Refusal> {
    /// # use otap::{Outcome, Store, REPLY_ROOM, STORE_SIZE};
    /// # let mut bytes = [0; STORE_SIZE];
    /// # let mut reply = [0; REPLY_ROOM];
    /// # let mut store = Store::start(&mut bytes)?;
    /// // Adds channel 241; and replaces the channels by 64 of them, which is all that there is room for.
    /// let one = *b"\x02\x02\0\0\x08\x07\x08\x01\xCE\0\x06\x40\x01\x0F\x1F";
    /// let mut others = b"\x02\x02\0\0\x08\x07\x08\x01\xCE\0\x64\xC0\x40".to_vec();
    /// others.extend(b"\x0F\x10\xF1".repeat(32));
    /// assert_eq!(store.judge(&one, &mut reply).outcome, Outcome::Taken);
    /// assert_eq!(store.commit(&others, &mut reply).outcome, Outcome::Taken);
    /// let answer = store.commit(&one, &mut reply);
    /// assert_eq!((answer.outcome, answer.number(), answer.failed_id), (Outcome::NoRoom, 2, 1));
    /// # Ok(())
    /// # }
    /// ```
    pub fn judge<'r>(&self, message: &[u8], reply: &'r mut [u8]) -> Answer<'r> {
        let packed = K::judge(message, self.bytes, reply);
        Answer::unpack(packed, reply)
    }

    /// Commits one message: takes it whole or not at all, and writes the reply to the start of the buffer.
    ///
    /// It judges the message itself, whether that was judged before or not: the store may have changed since.
    ///
    /// A request's texts are eight-bit characters, coding type 0100, or 16-bit Unicode, 0111; the store
    /// keeps 16-bit units of both. Another coding type is a bad field, failed ID 0.
    ///
    /// A line contact is known by its IDtype together with its digits: PSTN 2345 and PABX 2345 are two
    /// lines. A replace empties the list of both. A group or individual contact is known by its address,
    /// in its own list; slots go by their index.
    ///
    /// ```
    /// # fn main() -> Result<(), otap::Refusal> {
    /// let mut bytes = [0; otap::STORE_SIZE];
    /// let mut store = otap::Store::start(&mut bytes)?;
    /// // Replaces the scan channels by 241 and 640.
    /// let message = [2, 2, 0, 12, 8, 7, 8, 1, 0xCE, 0, 7, 0xC0, 2, 0x0F, 0x12, 0x80];
    /// let mut buffer = [0; otap::REPLY_ROOM];
    /// let answer = store.commit(&message, &mut buffer);
    /// assert_eq!((answer.outcome, answer.send, answer.reboot), (otap::Outcome::Taken, false, false));
    /// assert_eq!(answer.reply, [2, 2, 0, 6, 8, 0, 9, 0, 0, 0]);
    /// # Ok(())
    /// # }
    /// ```
    pub fn commit<'r>(&mut self, message: &[u8], reply: &'r mut [u8]) -> Answer<'r> {
        let packed = K::commit(message, self.bytes, reply);
        Answer::unpack(packed, reply)
    }

    /// Writes a part's request to the start of the buffer; refused with 15 or 11.
    ///
    /// All parts, in the order of [`Part::ALL`], give a fresh set of the same kind the same tables, and a vehicle's or a hand-held's any vehicle,
    /// whatever it held. A hand-held that is not fresh may refuse one of them with 2: texts of a table whose part is still to come share the room.
    /// A fresh hand-held takes all of a vehicle's exactly if the lines are at most 32, the channels at most 64, no request is over 4,096 bytes,
    /// and the texts are at most 4,096 bytes, two a unit. Otherwise it refuses the first part that does not fit, with 12 where that is over
    /// 4,096 bytes, else with 2, and keeps what the parts before it left.
    ///
    /// ```
    /// # fn main() -> Result<(), otap::Refusal> {
    /// use otap::{Outcome, Part, Store, EXPORT_ROOM, REPLY_ROOM, STORE_SIZE};
    /// let (mut one, mut other, mut buffer) = ([0; STORE_SIZE], [0; STORE_SIZE], [0; EXPORT_ROOM]);
    /// let from = Store::start(&mut one)?;
    /// let mut to = Store::start(&mut other)?;
    /// for part in Part::ALL {
    ///     let request = from.export(*part, &mut buffer)?;
    ///     assert_eq!(to.commit(request, &mut [0; REPLY_ROOM]).outcome, Outcome::Taken);
    /// }
    /// assert_eq!(from.bytes(), to.bytes());
    /// # Ok(())
    /// # }
    /// ```
    pub fn export<'b>(&self, part: Part, buffer: &'b mut [u8]) -> Result<&'b [u8], Refusal> {
        let packed = K::export(part.number(), self.bytes, buffer);
        match byte(packed, 0) {
            // The archive's contracts say that the length is within the buffer; `get` does not rely on it.
            0 => Ok(buffer.get(..half(packed, 16)).unwrap_or_default()),
            number => Err(Refusal::from_number(number)),
        }
    }

    /// What the screen draws for a row: its text, or its number where it has none; refused with
    /// 15, 11 or 17. A background group is refused with 17 too: [`Table`] has an example.
    ///
    /// A row borrows the store. Dispatch renames a group in the middle of a shift, while an
    /// officer picks the row by its name and presses PTT: here the screen is done with the old
    /// name before the new one is committed, and asks again for what it then draws.
    ///
    /// ```
    /// # use otap::{Outcome, Store, Table, REPLY_ROOM, SCRATCH_ROOM, STORE_SIZE};
    /// # fn main() -> Result<(), otap::Refusal> {
    /// // Both name group 32820900, in slot 0: first A1, then B2.
    /// const NAME: [u8; 22] = *b"\x02\x02\0\x12\x08\x07\x08\x01\xD1\0\x0D\x60\0\x10\0\x01\0A\01\0\0";
    /// const RENAME: [u8; 22] = *b"\x02\x02\0\x12\x08\x07\x08\x01\xD1\0\x0D\x60\0\x10\0\x01\0B\02\0\0";
    /// let (mut bytes, mut reply, mut scratch) = ([0; STORE_SIZE], [0; REPLY_ROOM], [0; SCRATCH_ROOM]);
    /// let mut store = Store::start(&mut bytes)?;
    /// assert_eq!(store.commit(&NAME, &mut reply).outcome, Outcome::Taken);
    /// let row = store.row(Table::Groups, 0, &mut scratch)?;
    /// assert_eq!(row.bytes(), b"\0A\01");
    /// assert_eq!(store.commit(&RENAME, &mut reply).outcome, Outcome::Taken);
    /// let row = store.row(Table::Groups, 0, &mut scratch)?;
    /// assert_eq!(row.bytes(), b"\0B\02");
    /// # Ok(())
    /// # }
    /// ```
    ///
    /// The accident does not compile: a row that is still held while a message is committed,
    /// so that the screen would read bytes that are another name by then. Judging one only reads.
    ///
    /// ```compile_fail,E0502
    /// # use otap::{Outcome, Store, Table, REPLY_ROOM, SCRATCH_ROOM, STORE_SIZE};
    /// # fn main() -> Result<(), otap::Refusal> {
    /// # const NAME: [u8; 22] = *b"\x02\x02\0\x12\x08\x07\x08\x01\xD1\0\x0D\x60\0\x10\0\x01\0A\01\0\0";
    /// # const RENAME: [u8; 22] = *b"\x02\x02\0\x12\x08\x07\x08\x01\xD1\0\x0D\x60\0\x10\0\x01\0B\02\0\0";
    /// # let (mut bytes, mut reply, mut scratch) = ([0; STORE_SIZE], [0; REPLY_ROOM], [0; SCRATCH_ROOM]);
    /// # let mut store = Store::start(&mut bytes)?;
    /// # assert_eq!(store.commit(&NAME, &mut reply).outcome, Outcome::Taken);
    /// let row = store.row(Table::Groups, 0, &mut scratch)?;
    /// assert_eq!(store.commit(&RENAME, &mut reply).outcome, Outcome::Taken);
    /// assert_eq!(row.bytes(), b"\0A\01");
    /// # Ok(())
    /// # }
    /// ```
    ///
    /// Nor does its other form: a scratch that is used again while a row in it is still held.
    ///
    /// ```compile_fail,E0499
    /// # use otap::{Store, Table, SCRATCH_ROOM, STORE_SIZE};
    /// # fn main() -> Result<(), otap::Refusal> {
    /// # let (mut bytes, mut scratch) = ([0; STORE_SIZE], [0; SCRATCH_ROOM]);
    /// # let store = Store::start(&mut bytes)?;
    /// let first = store.row(Table::Groups, 0, &mut scratch)?;
    /// let second = store.row(Table::Groups, 1, &mut scratch)?;
    /// assert_eq!(first.bytes(), second.bytes());
    /// # Ok(())
    /// # }
    /// ```
    pub fn row<'a>(
        &'a self,
        table: Table,
        row: u32,
        scratch: &'a mut [u8],
    ) -> Result<Row<'a>, Refusal> {
        let packed = K::row_part(table.number(), row, self.bytes, scratch);
        // A refusal's part is 0; only then is the number asked for.
        if packed == 0 {
            self.check_row(table, row, scratch)?;
        }
        Ok(Row::unpack(packed, self.bytes, scratch))
    }

    /// Whether the screen has such a row, without writing the scratch; refused as [`Set::row`] is.
    pub fn check_row(&self, table: Table, row: u32, scratch: &[u8]) -> Result<(), Refusal> {
        match K::row_number(table.number(), row, self.bytes, scratch) {
            0 => Ok(()),
            number => Err(Refusal::from_word(number)),
        }
    }

    /// How many line contacts and channels the store holds; refused with 11. Both are read, and not counted anew.
    ///
    /// ```
    /// # fn main() -> Result<(), otap::Refusal> {
    /// use otap::{Refusal, Store, REPLY_ROOM, STORE_SIZE};
    /// let mut bytes = [0; STORE_SIZE];
    /// assert_eq!(Store::lent(&mut bytes).counts(), Err(Refusal::NotAStore));
    /// let mut store = Store::start(&mut bytes)?;
    /// assert_eq!(store.counts().map(|counts| (counts.lines, counts.channels)), Ok((0, 0)));
    /// // Replaces the scan channels by 241 and 640.
    /// let message = [2, 2, 0, 12, 8, 7, 8, 1, 0xCE, 0, 7, 0xC0, 2, 0x0F, 0x12, 0x80];
    /// store.commit(&message, &mut [0; REPLY_ROOM]);
    /// let counts = store.counts()?;
    /// assert_eq!((counts.channels, counts.free_channels(), counts.free_lines()), (2, 62, 32));
    /// # Ok(())
    /// # }
    /// ```
    pub fn counts(&self) -> Result<Counts, Refusal> {
        Counts::unpack::<K>(K::counts(self.bytes))
    }

    /// Who is calling: the row of the line contact with this IDtype, [`PSTN`](crate::PSTN) or [`PABX`](crate::PABX),
    /// and these digits, one a byte, 0 to 9; none where no line has them. Refused with 11, then 20.
    ///
    /// Digits are compared as they are: 1 and 01 differ. No line has another IDtype, and line slots are not
    /// looked up. The row is one of [`Table::Lines`], which shows the caller's name, or the digits where it
    /// has none; after the next `commit` it may be another's.
    ///
    /// ```
    /// # fn main() -> Result<(), otap::Refusal> {
    /// use otap::{Outcome, Refusal, Store, Table, PABX, PSTN, REPLY_ROOM, SCRATCH_ROOM, STORE_SIZE};
    /// let (mut bytes, mut scratch) = ([0; STORE_SIZE], [0; SCRATCH_ROOM]);
    /// let mut store = Store::start(&mut bytes)?;
    /// // Adds PABX 3 without a name, and PABX 2345 with the name A1, in eight-bit characters.
    /// let message = *b"\x02\x02\0\x11\x08\x04\x08\x01\xCA\0\x0C\x42\x02\x3F\0\x23\x45\xFFA1\0";
    /// assert_eq!(store.commit(&message, &mut [0; REPLY_ROOM]).outcome, Outcome::Taken);
    /// assert_eq!(store.line_of(PABX, &[2, 3, 4, 5]), Ok(Some(1)));
    /// assert_eq!(store.row(Table::Lines, 1, &mut scratch)?.bytes(), b"\0A\01");
    /// // The same digits of the other IDtype, and fewer of them, are no line's; without digits it is no number.
    /// assert_eq!(store.line_of(PSTN, &[2, 3, 4, 5]), Ok(None));
    /// assert_eq!(store.line_of(PABX, &[2, 3, 4]), Ok(None));
    /// assert_eq!(store.line_of(PABX, &[]), Err(Refusal::BadNumber));
    /// # Ok(())
    /// # }
    /// ```
    pub fn line_of(&self, id_type: u32, digits: &[u8]) -> Result<Option<u32>, Refusal> {
        callers::unpack(K::line_of(id_type, digits, self.bytes))
    }
}
