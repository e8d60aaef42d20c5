//! What stands behind a row, and what the radio works by: the archive against the reference over every table, on many stores, good and poked.

use otap::{Attribute, CallFlags, Entry, GroupAddress, IndividualAddress, KeyTarget, Refusal};
use otap::{Part, Set, Table, MOST_DIGITS, PABX, PSTN};
use otap_reference::inputs::pokes::{
    poke_count, poke_line_slot, poke_list, poke_order, poke_texts,
};
use otap_reference::inputs::random::Random;
use otap_reference::inputs::values::Value;
use otap_reference::inputs::Inputs;
use otap_reference::layout;
use otap_tests::for_both_sets;
use otap_tests::hex_request;
use otap_tests::pair::Pair;
use otap_tests::sets::Tried;
use otap_tests::values::refused_by_all;
use std::collections::BTreeMap;

for_both_sets!(
    each_table_by_hand,
    settings_by_hand,
    a_fresh_store,
    far_outside,
    every_value_of_many_stores,
    another_length_is_no_store,
    poked_stores,
);

/// Entries of every table, with names and without, and all that has no table.
const ALL: [&str; 17] = [
    "CA 00 0B 6A 01 23 45 FF 00 41 00 00",
    "CA 00 10 54 01 12 34 56 78 90 12 34 56 78 FF 00 00",
    "D1 00 0B 6A 40 10 00 01 00 42 00 00",
    "D1 00 0B 55 C1 10 00 02 00 43 00 00",
    "D1 00 09 70 0F FF FF FF 00 00",
    "D2 00 0B 7C 00 10 00 01 00 44 00 00",
    "D2 00 09 40 0F FF 7D C8 00 00",
    "C8 00 0C 50 00 01 10 00 03 00 45 00 00",
    "C8 00 11 71 80 02 10 00 04 00 46 00 00 10 00 05 00 00",
    "C9 00 10 48 02 10 00 04 00 47 00 00 10 00 06 00 00",
    "D3 00 0A 62 02 12 2F 00 48 00 00",
    "D3 00 07 40 0F 0F 00 00",
    "CE 00 09 C0 03 0F 12 80 0F 1F",
    "CB 00 06 68 10 00 07",
    "CD 00 05 07 E4 C0",
    "CF 00 05 AB C8 60",
    "CC 00 08 41 03 00 51 00 00",
];

fn all<K: Tried>() -> Pair<K> {
    let mut pair = Pair::<K>::fresh();
    assert_eq!(pair.commit(&hex_request(&ALL)), 0);
    pair
}

fn flags(encryption: bool, emergency: bool, priority: u8) -> CallFlags {
    CallFlags { encryption, emergency, priority }
}

fn group(address: u32, attribute: Attribute, flags: CallFlags) -> Entry {
    let address = GroupAddress(address);
    Entry::Group { address, attribute, broadcast: false, ovcm: false, flags }
}

fn individual(address: u32, flags: CallFlags) -> Entry {
    Entry::Individual { address: IndividualAddress(address), flags }
}

/// By hand: table, index, and what stands there.
fn behind() -> [(Table, u32, Entry); 14] {
    let none = CallFlags::default();
    let member = flags(false, true, 2);
    let first = Entry::Group {
        address: GroupAddress(0x10_0001),
        attribute: Attribute::Response,
        broadcast: true,
        ovcm: true,
        flags: flags(false, false, 1),
    };
    [
        (Table::Lines, 0, Entry::Line { id_type: PABX, flags: flags(true, false, 2) }),
        (Table::Lines, 1, Entry::Line { id_type: PSTN, flags: flags(false, true, 1) }),
        (Table::Groups, 0, first),
        (Table::Groups, 1, group(0x10_0002, Attribute::Background, flags(true, true, 3))),
        (Table::Groups, 15, group(0xFF_FFFF, Attribute::Member, none)),
        (Table::Individuals, 0, individual(0x10_0001, flags(true, true, 3))),
        (Table::Individuals, 15, individual(0xFF_7DC8, none)),
        (Table::GroupContacts, 0, group(0x10_0003, Attribute::Background, none)),
        (Table::GroupContacts, 1, group(0x10_0004, Attribute::Member, member)),
        (Table::GroupContacts, 2, group(0x10_0005, Attribute::Member, member)),
        (Table::IndividualContacts, 0, individual(0x10_0004, flags(false, false, 2))),
        (Table::IndividualContacts, 1, individual(0x10_0006, flags(false, false, 2))),
        (Table::LineSlots, 2, Entry::Line { id_type: PABX, flags: flags(true, false, 0) }),
        (Table::LineSlots, 15, Entry::Line { id_type: PSTN, flags: none }),
    ]
}

fn each_table_by_hand<K: Tried>() {
    let mut pair = all::<K>();
    assert_eq!(pair.compare_values(), behind().len());
    let store = pair.store();
    for (table, index, entry) in behind() {
        assert_eq!(store.entry(table, index), Ok(entry), "{table:?} {index}");
    }
    for &table in Table::ALL {
        let wanted = behind().into_iter().filter(|row| row.0 == table);
        assert!(store.entries(table).unwrap().eq(wanted.map(|(_, index, entry)| (index, entry))));
    }
    let mut buffer = [0; MOST_DIGITS];
    let mut digits =
        |table, index| store.entry_digits(table, index, &mut buffer).map(<[u8]>::to_vec);
    assert_eq!(digits(Table::Lines, 0), Ok(vec![2, 3, 4, 5]));
    assert_eq!(digits(Table::Lines, 1).unwrap().len(), MOST_DIGITS);
    assert_eq!(digits(Table::LineSlots, 2), Ok(vec![1, 2, 2]));
    assert_eq!(digits(Table::LineSlots, 15), Ok(vec![0]));
    assert_eq!(digits(Table::LineSlots, 0), Err(Refusal::NothingThere));
}

fn settings_by_hand<K: Tried>() {
    let mut pair = all::<K>();
    let store = pair.store();
    assert!(store.channels().unwrap().eq([241, 640, 241]));
    assert_eq!(store.channel(3), Err(Refusal::NothingThere));
    let key = store.emergency_key().unwrap();
    assert_eq!(key.target, KeyTarget::Group(GroupAddress(0x10_0007)));
    assert_eq!((key.voice, key.status, key.siren), (true, false, true));
    assert_eq!(store.home_numbers(), Ok(otap::HomeNumbers { nzi: 15, np: 806 }));
    let code = otap::SystemCode { lai: 0xABC, la: 8, roaming: 1, par: true };
    assert_eq!(store.system_code(), Ok(code));
    // The current place, which keeps the group bit; then an individual.
    assert_eq!(pair.commit(&hex_request(&["CB 00 03 C8"])), 0);
    assert_eq!(pair.compare_values(), behind().len());
    let target = |pair: &mut Pair<K>| pair.store().emergency_key().unwrap().target;
    assert_eq!(target(&mut pair), KeyTarget::Current { group: true });
    assert_eq!(pair.commit(&hex_request(&["CB 00 06 10 FF FF FF"])), 0);
    assert_eq!(target(&mut pair), KeyTarget::Individual(IndividualAddress(0xFF_FFFF)));
}

/// Nothing stands anywhere in a fresh store, and its key calls the current place.
fn a_fresh_store<K: Tried>() {
    let mut pair = Pair::<K>::fresh();
    assert_eq!(pair.compare_values(), 0);
    assert_eq!(K::otap_emergency_key(&pair.bytes), 1 << 32);
    assert_eq!((K::otap_home_numbers(&pair.bytes), K::otap_system_code(&pair.bytes)), (0, 0));
}

/// Tables that there are not, places far outside, and buffers of every size.
fn far_outside<K: Tried>() {
    let mut pair = all::<K>();
    for table in [0, 1, 2, 3, 4, 8, 9, 0x104, 0x1_0004, 0x8000_0001, u32::MAX] {
        for index in [17, 63, 64, 255, 256, 0x101, 0x1_0000, 0x8000_0000, u32::MAX] {
            assert_eq!(pair.ask(Value::Entry { table, index }), 17);
            assert_eq!(pair.ask(Value::EntryDigits { table, index, room: 18 }), 17);
            assert_eq!(pair.ask(Value::Channel { position: index }), 17);
        }
    }
    for room in 0..64 {
        let number = if room < MOST_DIGITS { 15 } else { 0 };
        assert_eq!(pair.ask(Value::EntryDigits { table: 1, index: 1, room }), number);
    }
}

fn every_value_of_many_stores<K: Tried>() {
    let (mut entries, mut numbers) = (0, BTreeMap::new());
    for seed in K::seeds(8_000, 40) {
        let mut inputs = Inputs::new(seed, K::LIMITS);
        let mut pair = Pair::<K>::fresh();
        for turn in 0..40 {
            pair.commit(&inputs.message());
            for _ in 0..20 {
                *numbers.entry(pair.ask(inputs.value())).or_insert(0) += 1;
            }
            if turn % 10 == 9 {
                entries += pair.compare_values();
            }
        }
    }
    println!("{entries} entries; {numbers:?}");
    assert!(entries > 3_000 / K::SHARE);
    assert!([0, 15, 17]
        .iter()
        .all(|number| numbers.get(number).is_some_and(|&times| times > 500 / K::SHARE)));
}

fn another_length_is_no_store<K: Tried>() {
    let pair = all::<K>();
    for size in [0, 1, 12_288, K::STORE_SIZE - 1, K::STORE_SIZE + 1] {
        let mut other = pair.clone();
        other.bytes.resize(size, 0);
        refused_by_all::<K>(&mut other.bytes);
        for value in [Value::EmergencyKey, Value::HomeNumbers, Value::SystemCode] {
            assert_eq!(other.ask(value), 11);
        }
        assert_eq!(other.ask(Value::Entry { table: 4, index: 0 }), 11);
        assert_eq!(other.ask(Value::EntryDigits { table: 1, index: 0, room: 17 }), 15);
    }
}

/// The set that these bytes hold, as the exported parts tell it.
fn told_by<K: Tried>(bytes: Vec<u8>) -> Pair<K> {
    let mut pair = Pair::<K>::fresh();
    let mut bytes = bytes;
    for &part in Part::ALL {
        let mut buffer = vec![0; K::LONGEST_MESSAGE];
        let message = Set::<K>::lent(&mut bytes).export(part, &mut buffer).expect("a store");
        assert_eq!(pair.commit(message), 0);
    }
    Pair::of(bytes, pair.set)
}

/// Bytes that are still a store are answered as what they hold, and others are refused by each of the six calls.
fn poked_stores<K: Tried>() {
    let mut random = Random::new(24);
    let (mut stores, mut refused) = (0, 0);
    for seed in K::seeds(8_100, 20) {
        let mut inputs = Inputs::new(seed, K::LIMITS);
        let mut pair = Pair::<K>::fresh();
        for _ in 0..30 {
            pair.commit(&inputs.message());
        }
        for turn in 0..40 {
            let mut poked = pair.bytes.clone();
            match turn % 6 {
                0 => poke_count(&mut random, K::LIMITS, &mut poked),
                1 => poke_list(&mut random, K::LIMITS, &mut poked),
                2 => poke_order(&mut random, K::LIMITS, &mut poked),
                3 => poke_line_slot(&mut random, K::LIMITS, &mut poked),
                4 => poke_texts(&mut random, K::LIMITS, &mut poked),
                _ => poked[random.below(K::LIMITS.regions().spare())] ^= 1 << random.below(8),
            }
            if layout::is_store(&poked, K::LIMITS) {
                told_by::<K>(poked).compare_values();
                stores += 1;
            } else {
                refused_by_all::<K>(&mut poked);
                refused += 1;
            }
        }
    }
    println!("{stores} still a store, {refused} refused");
    assert!(stores > 150 / K::SHARE && refused > 150 / K::SHARE);
}
