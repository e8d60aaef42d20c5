//! The office's reader of reports: by hand, cut anywhere, damaged in every way, and at every place, by the archive and by the reference.

use otap::Refusal;
use otap_reference::inputs::maker::parameters::ASKED;
use otap_reference::inputs::random::Random;
use otap_reference::inputs::reports::damage::{damaged, Damage};
use otap_reference::inputs::reports::{good, ReportInput};
use otap_reference::inputs::Inputs;
use otap_reference::reference::message::Hash;
use otap_reference::reference::plan::{GroupAddress, IndividualAddress};
use otap_reference::reference::reports::items::Item;
use otap_reference::reference::settings::{
    EmergencyKey, GroupFlags, HomeNumbers, IndividualFlags, Line, LineFlags, SystemCode, TextEntry,
};
use otap_reference::reference::tables::Set;
use otap_tests::for_both_sets;
use otap_tests::reports::{items, look_by_both, read_by_both, EACH};
use otap_tests::sets::Tried;
use otap_tests::{bytes, raw, units};
use std::collections::BTreeMap;

for_both_sets!(
    by_hand,
    every_cut,
    refusals_in_order,
    every_byte,
    places_behind_65535,
    every_damage,
    good_reports,
    reports_of_many_stores,
);

/// A parameter of each type, and behind them the error of D1.
fn parameters() -> Vec<Vec<u8>> {
    EACH.iter().map(|(.., parameter)| bytes(parameter)).chain([vec![0xD1, 0x83]]).collect()
}

fn message() -> Vec<u8> {
    [bytes("02 02 00 56 08 07 0B 01 01 0B"), parameters().concat()].concat()
}

/// What it says.
fn said() -> Vec<Item> {
    let group = GroupFlags { attribute: 3, emergency: true, priority: 2, ..GroupFlags::default() };
    let individual = IndividualFlags { encryption: true, emergency: true, priority: 2 };
    let flags = LineFlags { encryption: true, priority: 3, ..LineFlags::default() };
    let line = Line { digits: vec![1, 2, 2], flags, text: units("") };
    let key =
        EmergencyKey { group: false, voice: true, status: false, siren: false, address: None };
    let text = |key, text| TextEntry { key, text: units(text) };
    vec![
        Item::GroupContact { index: 0, slot: group.of(GroupAddress(0x10_0004), units("F")) },
        Item::IndividualContact {
            index: 0,
            slot: individual.of(IndividualAddress(0xFF_7DC8), units("G")),
        },
        Item::LineContact { index: 0, line },
        Item::EmergencyKey(key),
        Item::QuickText(text(63, "QR")),
        Item::HomeNumbers(HomeNumbers { nzi: 15, np: 806 }),
        Item::Channel { index: 0, channel: 640 },
        Item::SystemCode(SystemCode { lai: 0xABC, la: 8, roaming: 1, par: true }),
        Item::StatusText { index: 0, entry: text(127, "") },
        Item::KeptHash(Hash::Stamped([1, 2, 3, 4, 5, 6, 7, 8, 9, 10])),
        Item::Unknown(0xD1),
    ]
}

fn by_hand<K: Tried>() {
    let message = message();
    let read = K::read(&message).expect("a report");
    assert_eq!((read.total, read.index, read.count), (1, 1, 11));
    assert_eq!(read.entries().count(), 11);
    assert_eq!(items::<K>(&message), said());
    assert_eq!(K::otap_read_report(&message), 11 << 24 | 1 << 16 | 1 << 8);
    assert_eq!(read_by_both::<K>(&message), 0);
}

/// What each parameter is, in the bits of docs/REPORTS.md.
const ENTRIES: [u64; 11] = [
    0x10_0004 << 32 | (3 * 64 + 4 + 2) << 8 | 0xC8,
    0xFF_7DC8 << 32 | (8 + 4 + 2) << 8 | 0xC9,
    (8 + 3) << 8 | 0xCA,
    (16 + 4) << 8 | 0xCB,
    63 << 16 | 0xCC,
    (15 << 15 | 806 << 5) << 32 | 0xCD,
    640 << 32 | 0xCE,
    (0xABC << 12 | 8 << 8 | 1 << 6 | 1 << 5) << 32 | 0xCF,
    127 << 16 | 0xD0,
    0xFF,
    1 << 28 | 0xD1,
];

const NONE: [u64; 4] = [0; 4];

/// Where its parts stand: text, its bytes, number or hash value, digits or HashCode. An empty text stands at its end unit.
const PARTS: [[u64; 4]; 11] = [
    [17, 2, 0, 0],
    [27, 2, 0, 0],
    [37, 0, 35, 3],
    NONE,
    [48, 4, 0, 0],
    NONE,
    NONE,
    NONE,
    [73, 0, 0, 0],
    [0, 0, 78, 2],
    NONE,
];

#[test]
fn bits_by_hand() {
    let message = message();
    let mut at = 10;
    for ((entry, parts), parameter) in ENTRIES.into_iter().zip(PARTS).zip(parameters()) {
        let [text, length, number, count] = parts;
        let behind = at + parameter.len() as u64;
        let places: u64 = behind | text << 16 | length << 32 | number << 40 | count << 56;
        let said = [raw::report_entry, raw::report_places].map(|call| call(&message, at as u32));
        assert_eq!(said, [entry, places], "{parameter:02X?}");
        at = behind;
    }
    assert_eq!(at, message.len() as u64);
    assert!(!look_by_both(&message, at as u32));
}

/// The report cut anywhere, its length as it was, stated anew or not stated; and with a count that is true again where a parameter ends.
fn every_cut<K: Tried>() {
    let whole = message();
    let mut good = 0;
    for cut in 0..whole.len() {
        let mut message = whole[..cut].to_vec();
        assert_eq!(read_by_both::<K>(&message), if cut < 7 { 12 } else { 13 }, "{cut}");
        for stated in [cut.saturating_sub(4), 0] {
            if cut < 7 {
                continue;
            }
            message[3] = stated as u8;
            assert_eq!(read_by_both::<K>(&message), 4, "{cut} {stated}");
            for sum in 0..=12 {
                let Some(place) = message.get_mut(9) else { continue };
                *place = sum;
                good += usize::from(read_by_both::<K>(&message) == 0);
            }
        }
        for at in 0..=cut as u32 {
            look_by_both(&whole[..cut], at);
        }
    }
    // Each count from 0 to 10, twice.
    assert_eq!(good, 22);
}

fn refusals_in_order<K: Tried>() {
    let steps = [
        ("03 02 00 00 08 07", 12, Refusal::MessageLength),
        ("03 02 00 00 08 07 12 01 02 01", 13, Refusal::WrongCarrier),
        ("02 02 00 00 08 04 12 01 02 01", 14, Refusal::WrongMessageType),
        ("02 02 00 00 08 04 13 01 02 01", 1, Refusal::WrongVersion),
        ("02 02 00 00 08 04 0B 01 02 01", 4, Refusal::BadField),
        ("02 02 00 00 08 07 0B 01 02 01", 4, Refusal::BadField),
        ("02 02 00 00 08 07 0B 01 01 01", 4, Refusal::BadField),
    ];
    for (hex, number, refusal) in steps {
        let message = bytes(hex);
        assert_eq!(
            (read_by_both::<K>(&message), K::otap_read_report(&message)),
            (number, number.into())
        );
        assert_eq!(K::read(&message), Err(refusal), "{hex}");
    }
    assert_eq!(read_by_both::<K>(&bytes("02 02 00 00 08 07 0B 01 01 00")), 0);
}

/// Each byte of the message changed to each other: what is still a report, and what each parameter is then, by both.
fn every_byte<K: Tried>() {
    let whole = message();
    let mut met: BTreeMap<u8, usize> = BTreeMap::new();
    for place in 0..whole.len() {
        let mut message = whole.clone();
        for byte in 0..=255 {
            message[place] = byte;
            *met.entry(read_by_both::<K>(&message)).or_default() += 1;
            look_by_both(&message, place as u32);
        }
    }
    println!("{met:?}");
    assert!(met.keys().copied().eq([0, 1, 4, 13, 14]));
    assert!(met[&0] > 2_000 && met[&4] > 5_000);
}

/// An error, two bytes, where the byte behind it fits in 16 bits and where it does not; a place is no other in its low bits.
fn places_behind_65535<K: Tried>() {
    let mut message = vec![0; 70_000];
    for (at, fits) in [(10, true), (65_533, true), (65_534, false), (69_998, false)] {
        message[at..at + 2].copy_from_slice(&[0xD1, 0x83]);
        let at = at as u32;
        assert!(look_by_both(&message, at), "{at}");
        assert_eq!(raw::report_entry(&message, at), 1 << 28 | 0xD1);
        let places = if fits { u64::from(at) + 2 } else { 0 };
        assert_eq!(raw::report_places(&message, at), places);
        assert!(!look_by_both(&message, at + 1) && !look_by_both(&message, at | 0x8000_0000));
    }
    assert!(!look_by_both(&message, 0x1_000A));
    assert_eq!(read_by_both::<K>(&message), 12);
}

fn every_damage<K: Tried>() {
    for damage in Damage::ALL {
        for seed in 0..300 {
            let message = damaged(&mut Random::new(seed), &Set::fresh(K::LIMITS), damage);
            assert_eq!(read_by_both::<K>(&message), damage.number(), "{damage:?}: {message:02X?}");
        }
    }
}

/// Reports that no set need write: any indexes, any order, any reserved bits; all types among them.
fn good_reports<K: Tried>() {
    let mut met: BTreeMap<u8, usize> = BTreeMap::new();
    for seed in 0..400 {
        let message = good(&mut Random::new(seed), &Set::fresh(K::LIMITS));
        assert_eq!(read_by_both::<K>(&message), 0, "{message:02X?}");
        for item in items::<K>(&message) {
            let asked = if item.is_error() { 0 } else { item.asked() };
            *met.entry(asked).or_default() += 1;
        }
    }
    println!("{met:?}");
    assert!([&[0], &ASKED[..]].concat().iter().all(|asked| met[asked] > 50));
}

fn reports_of_many_stores<K: Tried>() {
    let mut met: BTreeMap<u8, usize> = BTreeMap::new();
    let (mut found, mut nothing) = (0, 0);
    for seed in 8_100..8_160 {
        let mut inputs = Inputs::new(seed, K::LIMITS);
        for _ in 0..40 {
            inputs.message();
            let ReportInput { message, number } = inputs.report();
            let answered = read_by_both::<K>(&message);
            assert_eq!(answered, number.unwrap_or(answered), "{message:02X?}");
            *met.entry(answered).or_default() += 1;
            for _ in 0..10 {
                let at = inputs.report_place(&message);
                *if look_by_both(&message, at) { &mut found } else { &mut nothing } += 1;
            }
        }
    }
    println!("{met:?}; {found} found, {nothing} not");
    assert!(met.keys().copied().eq([0, 1, 4, 12, 13, 14]));
    assert!(met[&0] > 1_000 && met[&4] > 300 && found > 5_000 && nothing > 3_000);
}
