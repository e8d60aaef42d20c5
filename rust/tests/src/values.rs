//! What stands behind a row, and what the radio works by: by the archive and by the reference, which must say the same.

use crate::pair::{number_of, patterned, reference_row, Pair};
use crate::sets::Tried;
use otap::{
    CallFlags, DrawnRow, GroupAddress, IndividualAddress, KeyTarget, Refusal, Set, Table,
    MOST_DIGITS,
};
use otap_reference::inputs::values::Value;
use otap_reference::reference::packing::{
    packed_channel, packed_digits, packed_emergency_key, packed_entry, packed_home_numbers,
    packed_system_code,
};
use otap_reference::reference::screen::{row_part, Shown};
use otap_reference::reference::settings::{EmergencyKey, HomeNumbers, SystemCode};
use otap_reference::reference::values::{self, Entry};

impl<K: Tried> Pair<K> {
    pub(crate) fn is_store(&self) -> bool {
        self.bytes.len() == K::STORE_SIZE
    }

    /// A little more than a table has; none but the lines has more than 64 entries.
    fn places(table: u32) -> std::ops::Range<u32> {
        0..if table == 1 { K::MOST_LINES as u32 + 2 } else { 66 }
    }

    /// The number of a value: the packed answer by the reference's, bit by bit, and the face's by what it is. The store stays.
    pub fn ask(&mut self, value: Value) -> u8 {
        let before = self.bytes.clone();
        let number = match value {
            Value::Entry { table, index } => self.ask_entry(table, index),
            Value::EntryDigits { table, index, room } => self.ask_digits(table, index, room),
            Value::Channel { position } => self.ask_channel(position),
            Value::EmergencyKey => self.ask_key(),
            Value::HomeNumbers => self.ask_home(),
            Value::SystemCode => self.ask_system(),
        };
        assert!(self.bytes == before, "{value:?} only reads");
        number
    }

    fn ask_entry(&mut self, table: u32, index: u32) -> u8 {
        let wanted = values::entry(table, index, self.is_store(), &self.set);
        assert_eq!(
            K::otap_entry(table, index, &self.bytes),
            packed_entry(wanted),
            "{table} {index}"
        );
        if let Some(named) = Table::from_number(table) {
            let said = self.store().entry(named, index);
            assert_eq!(said.map_err(Refusal::number), wanted.map(faced), "{table} {index}");
        }
        number(wanted)
    }

    fn ask_digits(&mut self, table: u32, index: u32, room: usize) -> u8 {
        let (mut expected, mut first) = (patterned(room), patterned(room));
        let wanted = values::entry_digits(table, index, self.is_store(), &self.set, &mut expected);
        let packed = K::otap_entry_digits(table, index, &self.bytes, &mut first);
        assert_eq!(packed, packed_digits(wanted), "{table} {index}");
        assert!(first == expected, "the whole buffer of {table} {index}");
        if let Some(named) = Table::from_number(table) {
            let mut second = patterned(room);
            let said = self.store().entry_digits(named, index, &mut second);
            let digits = wanted.map(|count| &expected[..count]);
            assert_eq!(said.map_err(Refusal::number), digits, "{table} {index}");
            assert!(second == expected, "the whole buffer of {table} {index}");
        }
        number(wanted)
    }

    fn ask_channel(&mut self, position: u32) -> u8 {
        let wanted = values::channel(position, self.is_store(), &self.set);
        assert_eq!(K::otap_channel(position, &self.bytes), packed_channel(wanted), "{position}");
        let said = self.store().channel(position);
        assert_eq!(said.map_err(Refusal::number), wanted.map(u32::from), "{position}");
        number(wanted)
    }

    fn ask_key(&mut self) -> u8 {
        let wanted = values::emergency_key(self.is_store(), &self.set);
        assert_eq!(K::otap_emergency_key(&self.bytes), packed_emergency_key(wanted));
        let said = self.store().emergency_key();
        assert_eq!(said.map_err(Refusal::number), wanted.map(faced_key));
        number(wanted)
    }

    fn ask_home(&mut self) -> u8 {
        let wanted = values::home_numbers(self.is_store(), &self.set);
        assert_eq!(K::otap_home_numbers(&self.bytes), packed_home_numbers(wanted));
        let said = self.store().home_numbers().map_err(Refusal::number);
        assert_eq!(said, wanted.map(|HomeNumbers { nzi, np }| otap::HomeNumbers { nzi, np }));
        number(wanted)
    }

    fn ask_system(&mut self) -> u8 {
        let wanted = values::system_code(self.is_store(), &self.set);
        assert_eq!(K::otap_system_code(&self.bytes), packed_system_code(wanted));
        let said = self.store().system_code().map_err(Refusal::number);
        let faced =
            |SystemCode { lai, la, roaming, par }| otap::SystemCode { lai, la, roaming, par };
        assert_eq!(said, wanted.map(faced));
        number(wanted)
    }

    /// Every value of the store, and such as are not there on either side; says how many entries there are.
    pub fn compare_values(&mut self) -> usize {
        let mut entries = 0;
        let places = |table| Self::places(table).map(move |at| (table, at));
        for (table, index) in (0..10).flat_map(places) {
            entries += usize::from(self.ask_entry(table, index) == 0);
            self.ask_digits(table, index, MOST_DIGITS + index as usize % 3);
        }
        for position in 0..K::MOST_CHANNELS as u32 + 2 {
            self.ask_channel(position);
        }
        let fixed = [Value::EmergencyKey, Value::HomeNumbers, Value::SystemCode];
        assert_eq!(fixed.map(|value| self.ask(value)), [0; 3]);
        self.compare_lists();
        entries
    }

    /// The lists of the face: the entries and the rows of each table, and the channels.
    fn compare_lists(&mut self) {
        for &table in Table::ALL {
            let (mut entries, mut rows) = (Vec::new(), Vec::new());
            for index in Set::<K>::places(table) {
                if let Ok(entry) = values::entry(table.number(), index, true, &self.set) {
                    entries.push((index, faced(entry)));
                    rows.extend(self.reference_drawn(table, index, entry));
                }
            }
            let store = self.store();
            let drawn: Vec<DrawnRow> = store.rows(table).expect("a store").collect();
            assert!(store.entries(table).expect("a store").eq(entries), "{table:?}");
            assert_eq!(drawn.iter().map(parts).collect::<Vec<_>>(), rows, "{table:?}");
            for index in Self::places(table.number()) {
                let row = drawn.iter().find(|row| row.index() == index);
                assert_eq!(store.drawn(table, index).ok().as_ref(), row, "{table:?} {index}");
            }
        }
        let channels = self.set.tables.channels.iter().map(|&channel| u32::from(channel));
        assert!(Set::<K>::lent(&mut self.bytes).channels().expect("a store").eq(channels));
    }

    /// What a drawn row has to have, if the screen shows it: exactly where the entry is no background group.
    fn reference_drawn(&self, table: Table, index: u32, entry: Entry) -> Option<Drawn> {
        let row = reference_row(table.number(), index).expect("a table");
        let mut digits = [0; MOST_DIGITS];
        let count =
            values::entry_digits(table.number(), index, true, &self.set, &mut digits).unwrap_or(0);
        let background = matches!(entry, Entry::Group { flags, .. } if flags.attribute == 1);
        match row_part(row, true, &self.set, &mut patterned(otap::SCRATCH_ROOM)) {
            Shown::Nothing => {
                assert!(background, "{table:?} {index} is not shown");
                None
            }
            Shown::Stored(units) | Shown::Scratch(units) => {
                assert!(!background, "{table:?} {index} is shown");
                Some((index, units, faced(entry), digits[..count].to_vec()))
            }
        }
    }
}

/// Index, name, target and digits.
pub type Drawn = (u32, Vec<u16>, otap::Entry, Vec<u8>);

pub fn parts(row: &DrawnRow) -> Drawn {
    assert!(row.units().flat_map(u16::to_be_bytes).eq(row.name().iter().copied()));
    (row.index(), row.units().collect(), row.target(), row.digits().to_vec())
}

/// The six calls refuse these bytes with 11, and with nothing else in the answer; a short buffer comes before.
pub fn refused_by_all<K: Tried>(bytes: &mut [u8]) {
    let mut digits = patterned(MOST_DIGITS);
    for table in [0, 1, 2, 4, 6, 8, 9] {
        assert_eq!(K::otap_entry(table, 0, bytes), 11);
        assert_eq!(K::otap_entry_digits(table, 0, bytes, &mut digits), 11);
        assert_eq!(K::otap_entry_digits(table, 0, bytes, &mut digits[1..]), 15);
    }
    let fixed =
        [K::otap_emergency_key(bytes), K::otap_home_numbers(bytes), K::otap_system_code(bytes)];
    assert_eq!(
        (K::otap_channel(0, bytes), K::otap_channel(K::MOST_CHANNELS as u32, bytes), fixed),
        (11, 11, [11; 3])
    );
    assert!(digits == patterned(MOST_DIGITS), "a refusal touches no byte");
    let store = Set::<K>::lent(bytes);
    let lists = [
        number_of(&store.rows(Table::Groups)),
        number_of(&store.entries(Table::Groups)),
        number_of(&store.channels()),
        number_of(&store.drawn(Table::Groups, 0)),
    ];
    assert_eq!(lists, [11; 4]);
}

pub(crate) fn number<T>(answer: Result<T, u8>) -> u8 {
    answer.map_or_else(|number| number, |_| 0)
}

/// An entry of the reference as the face has it.
pub fn faced(entry: Entry) -> otap::Entry {
    let call = |encryption, emergency, priority| CallFlags { encryption, emergency, priority };
    match entry {
        Entry::Group { address, flags } => otap::Entry::Group {
            address: GroupAddress(address.0),
            attribute: match flags.attribute {
                1 => otap::Attribute::Background,
                2 => otap::Attribute::Response,
                3 => otap::Attribute::Member,
                other => panic!("no group has attribute {other}"),
            },
            broadcast: flags.broadcast,
            ovcm: flags.ovcm,
            flags: call(flags.encryption, flags.emergency, flags.priority),
        },
        Entry::Individual { address, flags } => otap::Entry::Individual {
            address: IndividualAddress(address.0),
            flags: call(flags.encryption, flags.emergency, flags.priority),
        },
        Entry::Line { flags } => otap::Entry::Line {
            id_type: u32::from(flags.pabx),
            flags: call(flags.encryption, flags.emergency, flags.priority),
        },
    }
}

pub(crate) fn faced_key(key: EmergencyKey) -> otap::EmergencyKey {
    let EmergencyKey { group, voice, status, siren, address } = key;
    let target = match address {
        None => KeyTarget::Current { group },
        Some(address) if group => KeyTarget::Group(GroupAddress(address)),
        Some(address) => KeyTarget::Individual(IndividualAddress(address)),
    };
    otap::EmergencyKey { target, voice, status, siren }
}
