//! A row as it was drawn, with what is called when the officer presses PTT.

use crate::answer::Refusal;
use crate::callers::MOST_DIGITS;
use crate::entries::{digits, entry, Entry};
use crate::kinds::{Handheld, Kind};
use crate::row::{units_of, Row, Table};
use crate::store::{Set, SCRATCH_ROOM};
use core::marker::PhantomData;
use core::ops::Range;

/// The name, or the number, that the screen draws for a row, and what stands behind it, taken together.
///
/// It owns both. What is committed later does not reach it: PTT calls the target that was drawn with the name that
/// the officer sees, and never the row as it is then. A row's index alone would not do: after a message, another may
/// stand there.
///
/// ```
/// # fn main() -> Result<(), otap::Refusal> {
/// use otap::{DrawnRow, Entry, GroupAddress, Outcome, Store, Table, REPLY_ROOM, STORE_SIZE};
/// // Group slot 0 is A1, address 100001 hex; then it is B2, address 100002.
/// const NAME: [u8; 22] = *b"\x02\x02\0\x12\x08\x07\x08\x01\xD1\0\x0D\x60\0\x10\0\x01\0A\01\0\0";
/// const OTHER: [u8; 22] = *b"\x02\x02\0\x12\x08\x07\x08\x01\xD1\0\x0D\x60\0\x10\0\x02\0B\02\0\0";
/// fn address(row: &DrawnRow) -> Option<GroupAddress> {
///     match row.target() {
///         Entry::Group { address, .. } => Some(address),
///         _ => None,
///     }
/// }
/// let (mut bytes, mut reply) = ([0; STORE_SIZE], [0; REPLY_ROOM]);
/// let mut store = Store::start(&mut bytes)?;
/// assert_eq!(store.commit(&NAME, &mut reply).outcome, Outcome::Taken);
/// let drawn = store.drawn(Table::Groups, 0)?;
/// // The screen shows A1. A message comes, and then the officer presses PTT: A1 is called.
/// assert_eq!(store.commit(&OTHER, &mut reply).outcome, Outcome::Taken);
/// assert_eq!(drawn.name(), b"\0A\01");
/// assert_eq!(address(&drawn), Some(GroupAddress(0x10_0001)));
/// // What is drawn then is B2, with its own address.
/// let again = store.drawn(Table::Groups, 0)?;
/// assert_eq!((again.name(), address(&again)), (&b"\0B\02"[..], Some(GroupAddress(0x10_0002))));
/// # Ok(())
/// # }
/// ```
#[derive(Clone, Copy, Debug, PartialEq, Eq, Hash)]
pub struct DrawnRow {
    index: u32,
    // Of lines, groups and individuals: 16 units of a text, or 18 digits.
    name: [u8; SCRATCH_ROOM],
    name_length: usize,
    target: Entry,
    digits: [u8; MOST_DIGITS],
    count: usize,
}

impl DrawnRow {
    /// What the screen draws: 16-bit units, high byte first, without an end unit.
    pub fn name(&self) -> &[u8] {
        self.name.get(..self.name_length).unwrap_or_default()
    }

    /// The same as units.
    pub fn units(&self) -> impl Iterator<Item = u16> + '_ {
        units_of(self.name())
    }

    /// What PTT calls.
    pub fn target(&self) -> Entry {
        self.target
    }

    /// The digits to dial, one a byte, where the target is a line; else none.
    pub fn digits(&self) -> &[u8] {
        self.digits.get(..self.count).unwrap_or_default()
    }

    /// The index or position at which it was drawn. After the next message another may stand there.
    pub fn index(&self) -> u32 {
        self.index
    }

    /// From one borrow of the store, so that nothing comes in between.
    fn take<K: Kind>(table: Table, index: u32, store: &[u8]) -> Result<DrawnRow, Refusal> {
        let target = entry::<K>(table, index, store)?;
        let mut scratch = [0; SCRATCH_ROOM];
        let packed = K::row_part(table.number(), index, store, &mut scratch);
        if packed == 0 {
            return Err(Refusal::NoSuchRow);
        }
        let (name, name_length) = copied(Row::unpack(packed, store, &scratch).bytes());
        let mut buffer = [0; MOST_DIGITS];
        let number = match target {
            Entry::Line { .. } => digits::<K>(table, index, store, &mut buffer)?,
            _ => &[],
        };
        let (digits, count) = copied(number);
        Ok(DrawnRow { index, name, name_length, target, digits, count })
    }
}

/// The bytes at the start of an array of their own, and how many they are.
fn copied<const N: usize>(bytes: &[u8]) -> ([u8; N], usize) {
    let mut copy = [0; N];
    copy.iter_mut().zip(bytes).for_each(|(to, from)| *to = *from);
    (copy, bytes.len().min(N))
}

impl<K: Kind> Set<'_, K> {
    /// A row as the screen draws it, with what stands behind it, both of the same store.
    ///
    /// Refused with 11; with 17 as [`Set::entry`] is, quick and status texts too; and with 17 as [`Set::row`] is, where a background group
    /// stands there.
    pub fn drawn(&self, table: Table, index: u32) -> Result<DrawnRow, Refusal> {
        DrawnRow::take::<K>(table, index, self.bytes())
    }

    /// The rows of a table that are shown, in order, all of the same store; refused with 11. Of texts, which have no target, there is none.
    ///
    /// ```
    /// # fn main() -> Result<(), otap::Refusal> {
    /// use otap::{Outcome, Store, Table, MOST_LINES, REPLY_ROOM, STORE_SIZE};
    /// let mut bytes = [0; STORE_SIZE];
    /// let mut store = Store::start(&mut bytes)?;
    /// // Adds PABX 3 without a name, and PABX 2345 with the name A1, in eight-bit characters.
    /// let message = *b"\x02\x02\0\x11\x08\x04\x08\x01\xCA\0\x0C\x42\x02\x3F\0\x23\x45\xFFA1\0";
    /// assert_eq!(store.commit(&message, &mut [0; REPLY_ROOM]).outcome, Outcome::Taken);
    /// let mut screen = [None; MOST_LINES];
    /// for (place, row) in screen.iter_mut().zip(store.rows(Table::Lines)?) {
    ///     *place = Some(row);
    /// }
    /// // The rows are the firmware's own now, and the store may change.
    /// store.commit(&message, &mut [0; REPLY_ROOM]);
    /// let drawn = screen.iter().flatten().map(|row| (row.name(), row.digits()));
    /// assert!(drawn.eq([(&b"\x003"[..], &[3][..]), (b"\0A\01", &[2, 3, 4, 5])]));
    /// # Ok(())
    /// # }
    /// ```
    ///
    /// A message in the middle of a list does not compile:
    ///
    /// ```compile_fail,E0502
    /// # fn main() -> Result<(), otap::Refusal> {
    /// # use otap::{Store, Table, REPLY_ROOM, STORE_SIZE};
    /// # let mut bytes = [0; STORE_SIZE];
    /// # let mut store = Store::start(&mut bytes)?;
    /// let mut rows = store.rows(Table::Lines)?;
    /// let first = rows.next();
    /// store.commit(&[], &mut [0; REPLY_ROOM]);
    /// let second = rows.next();
    /// # Ok(())
    /// # }
    /// ```
    pub fn rows(&self, table: Table) -> Result<Rows<'_, K>, Refusal> {
        self.counts()?;
        Ok(Rows { table, left: Self::places(table), store: self.bytes(), kind: PhantomData })
    }
}

/// The rows of a table that are shown. It borrows the store, so that all are of one; what it gives is the caller's own.
#[derive(Clone, Debug)]
pub struct Rows<'a, K = Handheld> {
    table: Table,
    left: Range<u32>,
    store: &'a [u8],
    kind: PhantomData<K>,
}

impl<K: Kind> Iterator for Rows<'_, K> {
    type Item = DrawnRow;

    fn next(&mut self) -> Option<DrawnRow> {
        let Rows { table, left, store, .. } = self;
        left.find_map(|index| DrawnRow::take::<K>(*table, index, store).ok())
    }
}
