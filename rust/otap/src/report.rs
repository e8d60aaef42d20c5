//! What the office reads of a report, one message at a time and without the query; with the feature `office`.
//!
//! ```
//! # fn main() -> Result<(), otap::Refusal> {
//! use otap::report::{self, Entry};
//! use otap::{HomeNumbers, Refusal, Store, REPLY_ROOM, REPORT_ROOM, STORE_SIZE};
//! let (mut bytes, mut buffer) = ([0; STORE_SIZE], [0; REPORT_ROOM]);
//! let mut store = Store::start(&mut bytes)?;
//! // Quick text 5 is A1, and the home numbers are NZI 15, NP 806.
//! let message = *b"\x02\x02\0\0\x08\x07\x08\x02\xCC\0\x0A\x41\x05\0A\01\0\0\xCD\0\x05\x07\xE4\xC0";
//! assert_eq!(store.commit(&message, &mut [0; REPLY_ROOM]).number(), 0);
//! // The office asks for both, CC and CD, and for D1, which it cannot ask for.
//! let query = [2, 2, 0, 7, 8, 7, 0x0A, 3, 0xCC, 0xCD, 0xD1];
//! let message = store.report(&query, 1, &mut buffer)?.message;
//! let read = report::read(message)?;
//! assert_eq!((read.index, read.total, read.count), (1, 1, 3));
//! for entry in read.entries() {
//!     match entry {
//!         Entry::QuickText { index, text } => assert_eq!((index, text.bytes()), (5, &b"\0A\01"[..])),
//!         Entry::HomeNumbers(numbers) => assert_eq!(numbers, HomeNumbers { nzi: 15, np: 806 }),
//!         other => assert_eq!(other, Entry::Unknown(0xD1)),
//!     }
//! }
//! assert_eq!(report::read(&message[..12]), Err(Refusal::WrongCarrier));
//! # Ok(())
//! # }
//! ```

use crate::answer::{bit, bits, byte, half, Refusal};
use crate::callers::MOST_DIGITS;
use crate::calls::{self, OfficeCalls};
use crate::conversions::{GroupAddress, IndividualAddress};
use crate::entries::{Attribute, CallFlags};
use crate::kinds::{Handheld, Vehicle};
use crate::row::units_of;
use crate::settings::{EmergencyKey, HomeNumbers, SystemCode};

/// The byte of a message at which its first parameter stands.
const FIRST: u32 = 10;

/// Reads one message of a hand-held's report; refused with 12, 13, 14, 1, then 4.
pub fn read(message: &[u8]) -> Result<ReadReport<'_>, Refusal> {
    read_from::<Handheld>(message)
}

/// The same of a vehicle's report, whose messages may have 8,192 bytes.
pub fn read_vehicle(message: &[u8]) -> Result<ReadReport<'_>, Refusal> {
    read_from::<Vehicle>(message)
}

fn read_from<K: OfficeCalls>(message: &[u8]) -> Result<ReadReport<'_>, Refusal> {
    let packed = K::read_report(message);
    match byte(packed, 0) {
        0 => Ok(ReadReport {
            total: bits(packed, 8, 8),
            index: bits(packed, 16, 8),
            count: bits(packed, 24, 8) as usize,
            message,
        }),
        number => Err(Refusal::from_number(number)),
    }
}

/// What a message of a report says. The report is whole once each index from 1 to the total was read.
#[derive(Clone, Copy, Debug, PartialEq, Eq)]
#[non_exhaustive]
pub struct ReadReport<'m> {
    /// How many messages the report has.
    pub total: u32,
    /// Which of them this is, from 1.
    pub index: u32,
    /// How many parameters it has.
    pub count: usize,
    message: &'m [u8],
}

impl<'m> ReadReport<'m> {
    /// Its parameters, in their order; of a table, that is the order of the set.
    pub fn entries(&self) -> Entries<'m> {
        Entries { left: self.count, at: FIRST, message: self.message }
    }
}

/// The parameters of a message, which it borrows.
#[derive(Clone, Debug)]
pub struct Entries<'m> {
    left: usize,
    at: u32,
    message: &'m [u8],
}

impl<'m> Iterator for Entries<'m> {
    type Item = Entry<'m>;

    fn next(&mut self) -> Option<Entry<'m>> {
        self.left = self.left.checked_sub(1)?;
        let packed = calls::report_entry(self.message, self.at);
        let places = calls::report_places(self.message, self.at);
        self.at = bits(places, 0, 16);
        Some(Entry::unpack(packed, &Parts::unpack(places, self.message)))
    }
}

/// A parameter: an entry of a table, by the type that was asked for.
///
/// Its index is what the message says: of contacts and lines the position in the list, from 0, mod 16, and of a channel the position.
#[derive(Clone, Copy, Debug, PartialEq, Eq)]
#[non_exhaustive]
pub enum Entry<'m> {
    /// C8: a group contact.
    GroupContact {
        /// Its index.
        index: u32,
        /// Its address.
        address: GroupAddress,
        /// Its attribute.
        attribute: Attribute,
        /// Broadcast.
        broadcast: bool,
        /// OVCM.
        ovcm: bool,
        /// The others of its flags.
        flags: CallFlags,
        /// Its name.
        text: Text<'m>,
    },
    /// C9: an individual contact.
    IndividualContact {
        /// Its index.
        index: u32,
        /// Its address.
        address: IndividualAddress,
        /// Its flags.
        flags: CallFlags,
        /// Its name.
        text: Text<'m>,
    },
    /// CA: a line contact.
    LineContact {
        /// Its index.
        index: u32,
        /// [`PSTN`](crate::PSTN) or [`PABX`](crate::PABX).
        id_type: u32,
        /// The others of its flags.
        flags: CallFlags,
        /// Its number.
        digits: Digits,
        /// Its name.
        text: Text<'m>,
    },
    /// CB: the emergency key.
    EmergencyKey(EmergencyKey),
    /// CC: a quick text.
    QuickText {
        /// Its own index, 0 to 63.
        index: u32,
        /// The text.
        text: Text<'m>,
    },
    /// CD: the home numbers.
    HomeNumbers(HomeNumbers),
    /// CE: a scan channel.
    Channel {
        /// Its index.
        index: u32,
        /// For [`transmit`](crate::transmit) and [`receive`](crate::receive).
        channel: u32,
    },
    /// CF: the system code.
    SystemCode(SystemCode),
    /// D0: a status text.
    StatusText {
        /// Its code, 32 to 127.
        code: u32,
        /// The text.
        text: Text<'m>,
    },
    /// FF: the hash kept, or none.
    KeptHash(Option<KeptHash<'m>>),
    /// The byte asked, which is no type that the set knows; it ends the report.
    Unknown(u8),
}

impl<'m> Entry<'m> {
    /// 0 to 7 are the type asked, 8 to 15 the flags, 16 to 27 the index or code, 28 set where the type is unknown, 32 to 55 the value.
    fn unpack(packed: u64, parts: &Parts<'m>) -> Entry<'m> {
        let (asked, index, text) = (byte(packed, 0), bits(packed, 16, 12), parts.text);
        match asked {
            unknown if bit(packed, 28) => Entry::Unknown(unknown),
            0xC8 => group_contact(packed, text),
            0xC9 => Entry::IndividualContact {
                index,
                address: IndividualAddress(bits(packed, 32, 24)),
                flags: call_flags(packed, 11),
                text,
            },
            0xCA => Entry::LineContact {
                index,
                id_type: bits(packed, 12, 1),
                flags: call_flags(packed, 11),
                digits: parts.digits(),
                text,
            },
            0xCB => Entry::EmergencyKey(emergency_key(packed)),
            0xCC => Entry::QuickText { index, text },
            0xCD => Entry::HomeNumbers(HomeNumbers {
                nzi: bits(packed, 47, 9) as u16,
                np: bits(packed, 37, 10) as u16,
            }),
            0xCE => Entry::Channel { index, channel: bits(packed, 32, 24) },
            0xCF => Entry::SystemCode(system_code(packed)),
            0xD0 => Entry::StatusText { code: index, text },
            0xFF => Entry::KeptHash(parts.hash()),
            // Nothing else is asked for.
            unknown => Entry::Unknown(unknown),
        }
    }
}

/// Attribute 14 and 15, broadcast 13, encryption 12, OVCM 11.
fn group_contact(packed: u64, text: Text<'_>) -> Entry<'_> {
    Entry::GroupContact {
        index: bits(packed, 16, 12),
        address: GroupAddress(bits(packed, 32, 24)),
        attribute: Attribute::of(bits(packed, 14, 2)),
        broadcast: bit(packed, 13),
        ovcm: bit(packed, 11),
        flags: call_flags(packed, 12),
        text,
    }
}

/// Priority 8 and 9, emergency 10; encryption is 12 of a group, else 11.
fn call_flags(packed: u64, encryption: u32) -> CallFlags {
    CallFlags {
        encryption: bit(packed, encryption),
        emergency: bit(packed, 10),
        priority: bits(packed, 8, 2) as u8,
    }
}

/// Current 12, group 11, voice 10, status 9, siren 8.
fn emergency_key(packed: u64) -> EmergencyKey {
    EmergencyKey::of(bits(packed, 32, 24), [12, 11, 10, 9, 8].map(|place| bit(packed, place)))
}

/// LAI from 44, LA from 40, roaming 38 and 39, PAR 37.
fn system_code(packed: u64) -> SystemCode {
    SystemCode {
        lai: bits(packed, 44, 12) as u16,
        la: bits(packed, 40, 4) as u8,
        roaming: bits(packed, 38, 2) as u8,
        par: bit(packed, 37),
    }
}

/// The bytes of a parameter that are no fields.
struct Parts<'m> {
    text: Text<'m>,
    /// From the number or the hash value on, to the parameter's end.
    number: &'m [u8],
    /// How many digits, or the HashCode.
    count: u8,
}

impl<'m> Parts<'m> {
    /// 0 to 15 are the byte behind the parameter, 16 to 31 the text, 32 to 39 its bytes, 40 to 55 the number or hash value, 56 to 63 how many digits, or the HashCode.
    fn unpack(places: u64, message: &'m [u8]) -> Parts<'m> {
        let (behind, text, number) = (half(places, 0), half(places, 16), half(places, 40));
        let text_end = text + usize::from(byte(places, 32));
        // Crate `otap_office` proves that these are within the message; `get` does not rely on it.
        Parts {
            text: Text { bytes: message.get(text..text_end).unwrap_or_default() },
            number: message.get(number..behind).unwrap_or_default(),
            count: byte(places, 56),
        }
    }

    /// Four bits each.
    fn digits(&self) -> Digits {
        let halves = self.number.iter().flat_map(|byte| [byte >> 4, byte & 15]);
        let count = usize::from(self.count);
        let mut digits = [0; MOST_DIGITS];
        digits.iter_mut().zip(halves.take(count)).for_each(|(to, digit)| *to = digit);
        Digits { digits, count }
    }

    /// The value ends the parameter.
    fn hash(&self) -> Option<KeptHash<'m>> {
        (self.count != 0).then_some(KeptHash { code: self.count, value: self.number })
    }
}

/// A text, where it stands in the message.
#[derive(Clone, Copy, Debug, PartialEq, Eq)]
pub struct Text<'m> {
    bytes: &'m [u8],
}

impl<'m> Text<'m> {
    /// 16-bit units, high byte first, without an end unit.
    pub fn bytes(&self) -> &'m [u8] {
        self.bytes
    }

    /// The same as units.
    pub fn units(&self) -> impl Iterator<Item = u16> + 'm {
        units_of(self.bytes)
    }
}

/// The number of a line.
#[derive(Clone, Copy, Debug, PartialEq, Eq)]
pub struct Digits {
    digits: [u8; MOST_DIGITS],
    count: usize,
}

impl Digits {
    /// One a byte, 0 to 9.
    pub fn as_slice(&self) -> &[u8] {
        self.digits.get(..self.count).unwrap_or_default()
    }
}

/// The hash that a set keeps.
#[derive(Clone, Copy, Debug, PartialEq, Eq)]
pub struct KeptHash<'m> {
    /// Its HashCode, 1 or 2.
    pub code: u8,
    /// Its value, 4 or 10 bytes.
    pub value: &'m [u8],
}
