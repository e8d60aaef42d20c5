//! Queries and reports: the set's call and the office's reader, by the archives and by the reference, which must say the same.

use crate::pair::{inverted, number_of, patterned, Pair};
use crate::raw;
use crate::sets::Tried;
use crate::values::number;
use otap::report::{self, Entry, KeptHash};
use otap::{Attribute, CallFlags, KeyTarget};
use otap_reference::reference::message::Hash;
use otap_reference::reference::packing::{
    packed_read_report, packed_report, packed_report_entry, packed_report_places,
};
use otap_reference::reference::plan::{GroupAddress, IndividualAddress};
use otap_reference::reference::queries::query;
use otap_reference::reference::report_reading::{entry_at, read};
use otap_reference::reference::reports::items::Item;
use otap_reference::reference::reports::{self, Told, REPORT_HEAD};
use otap_reference::reference::settings::{
    EmergencyKey, GroupFlags, HomeNumbers, IndividualFlags, Line, LineFlags, SystemCode, TextEntry,
};

/// A setting for each table, the byte that asks for it, and the parameter that reports it, by hand.
pub const EACH: [(&str, u8, &str); 10] = [
    ("C8 00 0C 71 80 01 10 00 04 00 46 00 00", 0xC8, "88 00 10 00 04 0C 60 00 46 00 00"),
    ("C9 00 0B 78 01 FF 7D C8 00 47 00 00", 0xC9, "89 00 FF 7D C8 0E 00 47 00 00"),
    ("CA 00 08 6C 01 12 2F 00 00", 0xCA, "8A 00 58 00 12 2F 00 00"),
    ("CB 00 03 A0", 0xCB, "8B 00 60 00 00 00"),
    ("CC 00 0A 41 3F 00 51 00 52 00 00", 0xCC, "8C 00 FC 00 51 00 52 00 00"),
    ("CD 00 05 07 E4 C0", 0xCD, "8D 00 07 E4 C0"),
    ("CE 00 06 C0 01 28 0F", 0xCE, "8E 00 28 00 00"),
    ("CF 00 05 AB C8 60", 0xCF, "8F 00 AB C8 60"),
    ("D0 00 07 40 01 7F 00 00", 0xD0, "90 00 7F 00 00 00"),
    ("FF 00 0D 02 01 02 03 04 05 06 07 08 09 0A", 0xFF, "BF 01 02 01 02 03 04 05 06 07 08 09 0A"),
];

impl<K: Tried> Pair<K> {
    /// What a query is answered: every bit, the whole buffer, the same by the face over other bytes; and the store stays.
    pub fn report_into(&mut self, query: &[u8], index: u32, room: usize) -> Told {
        let before = self.bytes.clone();
        let (mut expected, mut first) = (patterned(room), patterned(room));
        let wanted = reports::report(query, index, self.is_store(), &self.set, &mut expected);
        let packed = K::otap_report(query, index, &self.bytes, &mut first);
        assert_eq!(packed, packed_report(wanted), "message {index} to {query:02X?}");
        assert!(first == expected, "the whole buffer of message {index} to {query:02X?}");
        let mut second = inverted(room);
        let said = self.store().report(query, index, &mut second);
        assert_eq!(number_of(&said), number(wanted), "message {index} to {query:02X?}");
        let length = wanted.map_or(0, |report| report.length);
        if let (Ok(said), Ok(wanted)) = (said, wanted) {
            assert_eq!(said.total, u32::from(wanted.total));
            assert!(said.message == &expected[..length], "message {index} to {query:02X?}");
        }
        assert!(second[length..] == inverted(room)[length..], "behind the message to {query:02X?}");
        assert!(self.bytes == before, "a report only reads");
        wanted
    }

    /// All messages of the report to these types, by the face alone.
    pub fn messages_to(&mut self, types: &[u8]) -> Vec<Vec<u8>> {
        let (query, mut buffer) = (query(types), patterned(K::LONGEST_MESSAGE));
        let store = self.store();
        let mut message = |index| {
            let report = store.report(&query, index, &mut buffer).expect("a message of a report");
            (report.total, report.message.to_vec())
        };
        let (total, first) = message(1);
        let mut messages = vec![first];
        messages.extend((2..=total).map(|index| message(index).1));
        messages
    }
}

/// The number that a message is read with, by both: every bit, and each of its parameters by what it is and where it stands.
pub fn read_by_both<K: Tried>(message: &[u8]) -> u8 {
    let wanted = read(message, K::LIMITS);
    let packed = packed_read_report(wanted.as_ref().map_err(|number| *number));
    assert_eq!(K::otap_read_report(message), packed, "{message:02X?}");
    let said = K::read(message);
    assert_eq!(number_of(&said), number(wanted.as_ref().map_err(|number| *number)));
    if let (Ok(said), Ok(wanted)) = (said, &wanted) {
        let told = (said.total, said.index, said.count);
        assert_eq!(told, (wanted.total.into(), wanted.index.into(), wanted.entries.len()));
        let entries: Vec<Item> = said.entries().map(item_of).collect();
        assert_eq!(entries, unranked(wanted.items()), "{message:02X?}");
        let mut at = REPORT_HEAD;
        for entry in &wanted.entries {
            assert!(look_by_both(message, at as u32), "byte {at} of {message:02X?}");
            at = entry.places.behind;
        }
    }
    number(wanted)
}

/// Whether a parameter starts at a byte, by both: every bit of what it is and where it stands.
pub fn look_by_both(message: &[u8], at: u32) -> bool {
    let wanted = entry_at(message, at as usize);
    let packed = (packed_report_entry(wanted.as_ref()), packed_report_places(wanted.as_ref()));
    let said = (raw::report_entry(message, at), raw::report_places(message, at));
    assert_eq!(said, packed, "byte {at} of {message:02X?}");
    wanted.is_some()
}

/// What the face reads of a good message.
pub fn items<K: Tried>(message: &[u8]) -> Vec<Item> {
    K::read(message).expect("a message of a report").entries().map(item_of).collect()
}

/// The same parameters with rank 0 in every status text: the face has its code alone.
pub fn unranked(mut items: Vec<Item>) -> Vec<Item> {
    for item in &mut items {
        if let Item::StatusText { index, .. } = item {
            *index = 0;
        }
    }
    items
}

/// A parameter of the face as the reference has it.
pub(crate) fn item_of(entry: Entry) -> Item {
    match entry {
        Entry::GroupContact { .. }
        | Entry::IndividualContact { .. }
        | Entry::LineContact { .. } => contact_of(entry),
        Entry::EmergencyKey(key) => Item::EmergencyKey(key_of(key)),
        Entry::QuickText { index, text } => Item::QuickText(text_entry(index, text)),
        Entry::HomeNumbers(otap::HomeNumbers { nzi, np }) => {
            Item::HomeNumbers(HomeNumbers { nzi, np })
        }
        Entry::Channel { index, channel } => {
            Item::Channel { index: index as u16, channel: channel as u16 }
        }
        Entry::SystemCode(otap::SystemCode { lai, la, roaming, par }) => {
            Item::SystemCode(SystemCode { lai, la, roaming, par })
        }
        Entry::StatusText { code, text } => {
            Item::StatusText { index: 0, entry: text_entry(code, text) }
        }
        Entry::KeptHash(hash) => Item::KeptHash(hash_of(hash)),
        Entry::Unknown(byte) => Item::Unknown(byte),
        other => panic!("{other:?} has no table"),
    }
}

fn contact_of(entry: Entry) -> Item {
    match entry {
        Entry::GroupContact { index, address, attribute, broadcast, ovcm, flags, text } => {
            let CallFlags { encryption, emergency, priority } = flags;
            let attribute = attribute_number(attribute);
            let flags = GroupFlags { attribute, broadcast, encryption, ovcm, emergency, priority };
            let slot = flags.of(GroupAddress(address.0), units(text));
            Item::GroupContact { index: index as u8, slot }
        }
        Entry::IndividualContact { index, address, flags, text } => {
            let CallFlags { encryption, emergency, priority } = flags;
            let flags = IndividualFlags { encryption, emergency, priority };
            let slot = flags.of(IndividualAddress(address.0), units(text));
            Item::IndividualContact { index: index as u8, slot }
        }
        Entry::LineContact { index, id_type, flags, digits, text } => {
            let CallFlags { encryption, emergency, priority } = flags;
            let flags = LineFlags { encryption, emergency, priority, pabx: id_type == otap::PABX };
            let line = Line { digits: digits.as_slice().to_vec(), flags, text: units(text) };
            Item::LineContact { index: index as u8, line }
        }
        other => panic!("{other:?} is no contact"),
    }
}

fn attribute_number(attribute: Attribute) -> u8 {
    match attribute {
        Attribute::Background => 1,
        Attribute::Response => 2,
        Attribute::Member => 3,
    }
}

fn key_of(key: otap::EmergencyKey) -> EmergencyKey {
    let otap::EmergencyKey { target, voice, status, siren } = key;
    let (group, address) = match target {
        KeyTarget::Current { group } => (group, None),
        KeyTarget::Group(address) => (true, Some(address.0)),
        KeyTarget::Individual(address) => (false, Some(address.0)),
    };
    EmergencyKey { group, voice, status, siren, address }
}

fn text_entry(key: u32, text: report::Text) -> TextEntry {
    TextEntry { key: key as u8, text: units(text) }
}

fn units(text: report::Text) -> Vec<u16> {
    assert!(text.units().flat_map(u16::to_be_bytes).eq(text.bytes().iter().copied()));
    text.units().collect()
}

fn hash_of(hash: Option<KeptHash>) -> Hash {
    match hash {
        None => Hash::Nothing,
        Some(KeptHash { code: 1, value }) => Hash::Crc(value.try_into().expect("4 bytes")),
        Some(KeptHash { code, value }) => {
            assert_eq!(code, 2);
            Hash::Stamped(value.try_into().expect("10 bytes"))
        }
    }
}
