//! What stands behind a row: the address of a group or an individual, the digits of a line, and their flags.

use crate::answer::{bit, bits, value, Refusal};
use crate::conversions::{GroupAddress, IndividualAddress};
use crate::kinds::{Handheld, Kind};
use crate::row::Table;
use crate::store::Set;
use core::marker::PhantomData;
use core::ops::Range;

/// The flags that every kind has.
#[derive(Clone, Copy, Debug, Default, PartialEq, Eq, Hash)]
pub struct CallFlags {
    /// Encryption.
    pub encryption: bool,
    /// Emergency.
    pub emergency: bool,
    /// Priority, 0 to 3.
    pub priority: u8,
}

/// The attribute of a group.
#[derive(Clone, Copy, Debug, PartialEq, Eq, Hash)]
pub enum Attribute {
    /// 01: the radio listens to it, and the screen has no row for it.
    Background,
    /// 10.
    Response,
    /// 11.
    Member,
}

/// What stands behind a row, by kind: one address may be a group's and an individual's.
#[derive(Clone, Copy, Debug, PartialEq, Eq, Hash)]
pub enum Entry {
    /// A group, in a slot or among the contacts.
    Group {
        /// Its address.
        address: GroupAddress,
        /// Its attribute.
        attribute: Attribute,
        /// Broadcast.
        broadcast: bool,
        /// OVCM.
        ovcm: bool,
        /// The others of its flags.
        flags: CallFlags,
    },
    /// An individual, in a slot or among the contacts.
    Individual {
        /// Its address.
        address: IndividualAddress,
        /// Its flags.
        flags: CallFlags,
    },
    /// A line contact or a line slot; [`Set::entry_digits`] has its digits.
    Line {
        /// [`PSTN`](crate::PSTN) or [`PABX`](crate::PABX).
        id_type: u32,
        /// The others of its flags.
        flags: CallFlags,
    },
}

impl Entry {
    /// 8 to 31 address, 32 IDtype, 33 encryption, 34 emergency, 35 to 36 priority, 37 to 38 attribute, 39 broadcast, 40 OVCM. The kind is the table's.
    fn unpack(table: Table, packed: u64) -> Entry {
        let flags = CallFlags {
            encryption: bit(packed, 33),
            emergency: bit(packed, 34),
            priority: bits(packed, 35, 2) as u8,
        };
        match table {
            Table::Groups | Table::GroupContacts => Entry::Group {
                address: GroupAddress(bits(packed, 8, 24)),
                attribute: Attribute::of(bits(packed, 37, 2)),
                broadcast: bit(packed, 39),
                ovcm: bit(packed, 40),
                flags,
            },
            Table::Individuals | Table::IndividualContacts => {
                Entry::Individual { address: IndividualAddress(bits(packed, 8, 24)), flags }
            }
            // Quick and status texts have nothing behind them, and are refused before this.
            _ => Entry::Line { id_type: bits(packed, 32, 1), flags },
        }
    }
}

impl Attribute {
    pub(crate) fn of(number: u32) -> Attribute {
        match number {
            1 => Attribute::Background,
            2 => Attribute::Response,
            // No group has 00.
            _ => Attribute::Member,
        }
    }
}

pub(crate) fn entry<K: Kind>(table: Table, index: u32, store: &[u8]) -> Result<Entry, Refusal> {
    let packed = K::entry(table.number(), index, store);
    value(packed, |packed| Entry::unpack(table, packed))
}

/// 8 to 15 are how many digits there are.
pub(crate) fn digits<'d, K: Kind>(
    table: Table,
    index: u32,
    store: &[u8],
    buffer: &'d mut [u8],
) -> Result<&'d [u8], Refusal> {
    let packed = K::entry_digits(table.number(), index, store, buffer);
    let count = value(packed, |packed| bits(packed, 8, 8) as usize)?;
    // The archive's contracts say that they are within the buffer; `get` does not rely on it.
    Ok(buffer.get(..count).unwrap_or_default())
}

impl<K: Kind> Set<'_, K> {
    /// What stands behind a row, named as for [`Set::row`]; refused with 11, then 17: nothing stands there.
    ///
    /// A background group, which has no row, is answered too: the radio listens to it. Quick and status texts have
    /// nothing behind them. After any messages, the name that the screen shows in a row and what stands behind it
    /// were sent together; [`Set::drawn`] takes both at once, to be called when the officer presses PTT.
    ///
    /// ```
    /// # fn main() -> Result<(), otap::Refusal> {
    /// use otap::{Attribute, CallFlags, Entry, GroupAddress, Outcome, Refusal, Store, Table, REPLY_ROOM, STORE_SIZE};
    /// let mut bytes = [0; STORE_SIZE];
    /// let mut store = Store::start(&mut bytes)?;
    /// assert_eq!(store.entry(Table::Groups, 0), Err(Refusal::NothingThere));
    /// // Group slot 0: address 100001 hex, name A1, a response group.
    /// let message = *b"\x02\x02\0\x12\x08\x07\x08\x01\xD1\0\x0D\x60\0\x10\0\x01\0A\01\0\0";
    /// assert_eq!(store.commit(&message, &mut [0; REPLY_ROOM]).outcome, Outcome::Taken);
    /// let wanted = Entry::Group {
    ///     address: GroupAddress(0x10_0001),
    ///     attribute: Attribute::Response,
    ///     broadcast: false,
    ///     ovcm: false,
    ///     flags: CallFlags::default(),
    /// };
    /// assert_eq!(store.entry(Table::Groups, 0), Ok(wanted));
    /// # Ok(())
    /// # }
    /// ```
    pub fn entry(&self, table: Table, index: u32) -> Result<Entry, Refusal> {
        entry::<K>(table, index, self.bytes())
    }

    /// The digits of a line contact or a line slot, one a byte, at the start of the buffer; refused with 15 (under 18 bytes), 11, then 17.
    ///
    /// ```
    /// # fn main() -> Result<(), otap::Refusal> {
    /// use otap::{Outcome, Refusal, Store, Table, MOST_DIGITS, REPLY_ROOM, STORE_SIZE};
    /// let (mut bytes, mut buffer) = ([0; STORE_SIZE], [0; MOST_DIGITS]);
    /// let mut store = Store::start(&mut bytes)?;
    /// // Adds PABX 2345 without a name.
    /// let message = *b"\x02\x02\0\x0E\x08\x07\x08\x01\xCA\0\x09\x42\x01\x23\x45\xFF\0\0";
    /// assert_eq!(store.commit(&message, &mut [0; REPLY_ROOM]).outcome, Outcome::Taken);
    /// assert_eq!(store.entry_digits(Table::Lines, 0, &mut buffer)?, [2, 3, 4, 5]);
    /// assert_eq!(store.entry_digits(Table::Lines, 0, &mut buffer[1..]), Err(Refusal::BufferShort));
    /// assert_eq!(store.entry_digits(Table::Groups, 0, &mut buffer), Err(Refusal::NothingThere));
    /// # Ok(())
    /// # }
    /// ```
    pub fn entry_digits<'d>(
        &self,
        table: Table,
        index: u32,
        buffer: &'d mut [u8],
    ) -> Result<&'d [u8], Refusal> {
        digits::<K>(table, index, self.bytes(), buffer)
    }

    /// Each entry of a table with its index or position, background groups too; refused with 11. Of texts there is none.
    ///
    /// ```
    /// # fn main() -> Result<(), otap::Refusal> {
    /// use otap::{Attribute, Entry, Outcome, Store, Table, REPLY_ROOM, STORE_SIZE};
    /// let mut bytes = [0; STORE_SIZE];
    /// let mut store = Store::start(&mut bytes)?;
    /// // Adds two group contacts: a response group A and a background group B.
    /// let message = *b"\x02\x02\0\x1A\x08\x04\x08\x02\
    ///     \xC8\0\x0A\x60\0\x01\x10\0\x01A\0\xC8\0\x0A\x50\0\x01\x10\0\x02B\0";
    /// assert_eq!(store.commit(&message, &mut [0; REPLY_ROOM]).outcome, Outcome::Taken);
    /// let background = |entry: &Entry| matches!(entry, Entry::Group { attribute: Attribute::Background, .. });
    /// let mut listened_to = store.entries(Table::GroupContacts)?.filter(|(_, entry)| background(entry));
    /// assert_eq!(listened_to.next().map(|(position, _)| position), Some(1));
    /// assert_eq!(store.rows(Table::GroupContacts)?.count(), 1);
    /// # Ok(())
    /// # }
    /// ```
    pub fn entries(&self, table: Table) -> Result<Entries<'_, K>, Refusal> {
        self.counts()?;
        let left = Self::places(table);
        Ok(Entries { table, left, store: self.bytes(), kind: PhantomData })
    }
}

/// The entries of a table, each with its index or position. It borrows the store, so that no message comes in between.
#[derive(Clone, Debug)]
pub struct Entries<'a, K = Handheld> {
    table: Table,
    left: Range<u32>,
    store: &'a [u8],
    kind: PhantomData<K>,
}

impl<K: Kind> Iterator for Entries<'_, K> {
    type Item = (u32, Entry);

    fn next(&mut self) -> Option<(u32, Entry)> {
        let Entries { table, left, store, .. } = self;
        left.find_map(|index| Some((index, entry::<K>(*table, index, store).ok()?)))
    }
}
