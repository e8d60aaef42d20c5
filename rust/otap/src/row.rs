//! A row of the screen: the part of the store, or of the scratch, that shows it.

use crate::answer::half;
use crate::counts::MOST_LINES;
use core::ops::Range;

/// Positions of the group contacts, and of the individual contacts: rows 0 to 63.
pub const CONTACT_ROWS: u32 = 64;

/// A table of the screen, and how its rows are counted.
///
/// A background group, attribute 01, is held and exported, but not shown: in both tables of groups its row
/// is refused with 17. It keeps its position, and the rows behind it do not move up. So a screen asks for
/// every position of the group contacts, and the first that is refused does not end the list.
///
/// ```
/// # fn main() -> Result<(), otap::Refusal> {
/// use otap::{Outcome, Refusal, Store, Table, CONTACT_ROWS, REPLY_ROOM, SCRATCH_ROOM, STORE_SIZE};
/// let (mut bytes, mut scratch) = ([0; STORE_SIZE], [0; SCRATCH_ROOM]);
/// let mut store = Store::start(&mut bytes)?;
/// // Adds three group contacts, each by a setting C8: a response group A, a background group B, a member group C.
/// let message = *b"\x02\x02\0\x25\x08\x04\x08\x03\
///     \xC8\0\x0A\x60\0\x01\x10\0\x01A\0\xC8\0\x0A\x50\0\x01\x10\0\x02B\0\xC8\0\x0A\x70\0\x01\x10\0\x03C\0";
/// assert_eq!(store.commit(&message, &mut [0; REPLY_ROOM]).outcome, Outcome::Taken);
/// let mut drawn = [None; CONTACT_ROWS as usize];
/// for (row, place) in (0..).zip(&mut drawn) {
///     match store.row(Table::GroupContacts, row, &mut scratch) {
///         Ok(shown) => *place = shown.units().next(),
///         Err(Refusal::NoSuchRow) => {} // nothing there, or a background group: the next may be shown
///         Err(other) => return Err(other),
///     }
/// }
/// assert_eq!(drawn[..4], [Some(u16::from(b'A')), None, Some(u16::from(b'C')), None]);
/// # Ok(())
/// # }
/// ```
#[derive(Clone, Copy, Debug, PartialEq, Eq, Hash)]
#[non_exhaustive]
#[repr(u32)]
pub enum Table {
    /// Line contacts, by position from 0.
    Lines = 1,
    /// Quick texts, by index from 0.
    QuickTexts = 2,
    /// Status texts, by code from 32 to 127.
    StatusTexts = 3,
    /// Groups, by slot from 0; a background group has no row.
    Groups = 4,
    /// Individuals, by slot from 0.
    Individuals = 5,
    /// Group contacts, by position from 0; a background group has no row.
    GroupContacts = 6,
    /// Individual contacts, by position from 0.
    IndividualContacts = 7,
    /// Lines, by slot from 0.
    LineSlots = 8,
}

impl Table {
    /// Each of them, in the order of their numbers.
    pub const ALL: &'static [Table] = &[
        Table::Lines,
        Table::QuickTexts,
        Table::StatusTexts,
        Table::Groups,
        Table::Individuals,
        Table::GroupContacts,
        Table::IndividualContacts,
        Table::LineSlots,
    ];

    /// The number of document 01.
    pub fn number(self) -> u32 {
        self as u32
    }

    /// Its places in a hand-held: every row that it has is one of them. [`Set::places`](crate::Set::places) has those of either kind.
    ///
    /// ```
    /// assert_eq!(otap::Table::Groups.places(), 0..16);
    /// assert_eq!(otap::Table::StatusTexts.places(), 32..128);
    /// ```
    pub fn places(self) -> Range<u32> {
        self.places_with(MOST_LINES)
    }

    /// In a set with room for so many lines.
    pub(crate) fn places_with(self, lines: usize) -> Range<u32> {
        match self {
            Table::Lines => 0..lines as u32,
            Table::QuickTexts => 0..64,
            Table::StatusTexts => 32..128,
            Table::Groups | Table::Individuals | Table::LineSlots => 0..16,
            Table::GroupContacts | Table::IndividualContacts => 0..CONTACT_ROWS,
        }
    }

    /// The table with this number.
    ///
    /// ```
    /// assert_eq!(otap::Table::from_number(4), Some(otap::Table::Groups));
    /// assert_eq!(otap::Table::from_number(0), None);
    /// ```
    pub fn from_number(number: u32) -> Option<Table> {
        Table::ALL.iter().copied().find(|table| table.number() == number)
    }
}

/// The lent bytes that a row's part lies in.
#[derive(Clone, Copy, Debug, PartialEq, Eq)]
pub enum Slice {
    /// The text itself, where the store keeps it.
    Store,
    /// The number, written because the row has no text; of a desk, text or number.
    Scratch,
}

/// Two bytes each, high byte first.
pub(crate) fn units_of(bytes: &[u8]) -> impl Iterator<Item = u16> + '_ {
    bytes.chunks_exact(2).map(|pair| pair.iter().fold(0, |unit, &b| unit << 8 | u16::from(b)))
}

/// What the screen draws for a row; it borrows the store and the scratch.
#[derive(Clone, Copy, Debug, PartialEq, Eq)]
pub struct Row<'a> {
    bytes: &'a [u8],
    slice: Slice,
    offset: usize,
}

impl<'a> Row<'a> {
    /// 16-bit units, high byte first, without an end unit.
    pub fn bytes(&self) -> &'a [u8] {
        self.bytes
    }

    /// The same as units.
    pub fn units(&self) -> impl Iterator<Item = u16> + 'a {
        units_of(self.bytes)
    }

    /// Whether the text or the number is shown.
    pub fn slice(&self) -> Slice {
        self.slice
    }

    /// Where the part starts in that slice.
    pub fn offset(&self) -> usize {
        self.offset
    }

    /// Bit 0 names the slice, 16 to 31 are the offset, 32 to 47 the length.
    pub(crate) fn unpack(packed: u64, store: &'a [u8], scratch: &'a [u8]) -> Row<'a> {
        let (slice, lent) =
            if packed & 1 == 0 { (Slice::Store, store) } else { (Slice::Scratch, scratch) };
        let (offset, length) = (half(packed, 16), half(packed, 32));
        // The archive's contracts say that the part is within its slice; `get` does not rely on it.
        let bytes = lent.get(offset..offset + length).unwrap_or_default();
        Row { bytes, slice, offset }
    }
}
