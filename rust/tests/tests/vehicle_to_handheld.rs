//! What a hand-held takes of a vehicle's export, and a vehicle of a hand-held's: at which part it stops, with which number and failed ID, and the store then.

use otap::{Handheld, Part, Refusal, Set, Store, Vehicle, VehicleStore};
use otap_reference::inputs::random::Random;
use otap_reference::inputs::requests::texts;
use otap_reference::inputs::Inputs;
use otap_reference::reference::limits::{Limits, Texts, HANDHELD, VEHICLE};
use otap_reference::reference::queries::query;
use otap_reference::reference::settings::Operation::{Add, Replace};
use otap_reference::reference::settings::{LineEntry, LineFlags, Setting};
use otap_tests::fitting::{foreseen, Stopped};
use otap_tests::pair::{number_of, patterned, Pair};
use otap_tests::sets::Tried;
use otap_tests::{channels, hex_request, lines_add, quick, request, status};

/// The parts of an export, as the archive writes them.
fn exported<K: Tried>(pair: &mut Pair<K>) -> Vec<(u32, Vec<u8>)> {
    let mut buffer = patterned(K::LONGEST_MESSAGE);
    let store = pair.store();
    let mut part = |&part: &Part| {
        let request = store.export(part, &mut buffer).expect("a part of a store");
        (part.number(), request.to_vec())
    };
    Part::ALL.iter().map(&mut part).collect()
}

/// Commits one set's export to another up to the first part that is not taken.
fn stops<F: Tried, T: Tried>(from: &mut Pair<F>, to: &mut Pair<T>) -> Stopped {
    exported(from).into_iter().find_map(|(part, message)| {
        let (number, failed) = to.told(&message);
        (number != 0).then_some((part, number, failed))
    })
}

/// A replace by so many lines of 18 digits and 16 units, as long as a line can be.
fn lines(count: usize) -> Vec<u8> {
    let line = |place: usize| {
        let number = [place / 100, place / 10 % 10, place % 10].map(|digit| digit as u8);
        LineEntry { digits: [&[7; 15][..], &number].concat(), text: vec![0x8B66; 16] }
    };
    let entries = (0..count).map(line).collect();
    Setting::Lines { operation: Replace, flags: LineFlags::default(), entries }.write()
}

/// A set with so many lines and channels, and some of what the other parts have.
fn holding<K: Tried>(line_count: usize, channel_count: usize) -> Pair<K> {
    let mut pair = Pair::fresh();
    let numbers: Vec<u16> = (241..).take(channel_count).collect();
    let others = [quick(Replace, &[(5, "A1")]), status(Replace, &[(40, "B2")])];
    let settings = [vec![lines(line_count), channels(Replace, &numbers)], others.to_vec()];
    assert_eq!(pair.told(&request(&settings.concat())), (0, 0));
    pair
}

/// A hand-held that holds other things.
fn other() -> Pair<Handheld> {
    let mut pair = Pair::fresh();
    let settings = [channels(Replace, &[640; 3]), lines(2), quick(Replace, &[(6, "C3")])];
    assert_eq!(pair.told(&request(&settings)), (0, 0));
    pair
}

/// Of a fresh hand-held and of another it is the same part and number; those before it are taken, and nothing else of it is.
fn assert_stops(lines: usize, channels: usize, stopped: Stopped) {
    for mut to in [Pair::<Handheld>::fresh(), other()] {
        let mut from = holding::<Vehicle>(lines, channels);
        assert_eq!(foreseen(&from.set, &to.set), stopped, "{lines} {channels}");
        let mut before = to.clone();
        assert_eq!(stops(&mut from, &mut to), stopped, "{lines} {channels}");
        let taken = stopped.map_or(Part::ALL.len(), |(part, ..)| part as usize - 1);
        for (_, message) in exported(&mut from).into_iter().take(taken) {
            assert_eq!(before.told(&message), (0, 0));
        }
        assert!(to.bytes == before.bytes, "the store is as the parts before have left it");
        assert_eq!(to.set.tables == from.set.tables, stopped.is_none(), "{lines} {channels}");
    }
}

#[test]
fn lines_that_fit_and_lines_that_do_not() {
    for (count, stopped) in [
        (0, None),
        (31, None),
        (32, None),
        // A replace and 32 adds come before the first line without a place.
        (33, Some((1, 2, 34))),
        (34, Some((1, 2, 34))),
        (83, Some((1, 2, 34))),
        (84, Some((1, 12, 0))),
        (128, Some((1, 12, 0))),
    ] {
        assert_stops(count, 0, stopped);
    }
}

/// As many lines as a vehicle has room for, but short ones, of which a request has under 4,096 bytes: 2, and not 12.
#[test]
fn short_lines_have_no_room_either() {
    let numbers: Vec<[u8; 3]> = (0..128).map(|at: u8| [at / 100, at / 10 % 10, at % 10]).collect();
    let numbers: Vec<&[u8]> = numbers.iter().map(|digits| &digits[..]).collect();
    let mut from = Pair::<Vehicle>::fresh();
    assert_eq!(from.told(&request(&[lines_add(&numbers)])), (0, 0));
    assert_eq!(exported(&mut from)[0].1.len(), 1_165);
    let mut to = other();
    let before = to.bytes.clone();
    assert_eq!(stops(&mut from, &mut to), Some((1, 2, 34)));
    assert!(to.bytes == before);
}

/// 83 of the longest lines are the most that 4,096 bytes hold.
#[test]
fn how_long_part_1_is() {
    let length = |count| exported(&mut holding::<Vehicle>(count, 0))[0].1.len();
    assert_eq!([32, 33, 83, 84, 128].map(length), [1_581, 1_630, 4_080, 4_129, 6_285]);
}

/// A vehicle with so many status texts and group slots of 16 units behind 64 quick texts of 23, all of them to a fresh hand-held and to another.
#[test]
fn texts_that_fit_and_texts_that_do_not() {
    let (long, longer) = ("y".repeat(16), "y".repeat(23));
    let slot = |index: u8| {
        let units = "00 79 ".repeat(16);
        otap_tests::bytes(&format!("D1 00 29 60 {index:02X} 10 00 01 {units} 00 00"))
    };
    for (texts, groups, fresh, other) in [
        // The other's lines and quick text are gone when status texts come; its group slot, of 32 bytes, is not, and goes when it is itself overwritten or
        // deleted, behind the others.
        (35, 0, None, None),
        (36, 0, None, Some((5, 2, 1))),
        (37, 0, Some((5, 2, 1)), Some((5, 2, 1))),
        (34, 1, None, None),
        (35, 1, None, Some((6, 2, 1))),
        (34, 2, None, Some((6, 2, 2))),
        (33, 3, None, Some((6, 2, 3))),
        (35, 2, Some((6, 2, 2)), Some((6, 2, 1))),
        (20, 16, None, None),
        (21, 16, Some((6, 2, 16)), Some((6, 2, 15))),
        (96, 16, Some((5, 2, 1)), Some((5, 2, 1))),
    ] {
        let quick_texts: Vec<(u8, &str)> = (0..64).map(|index| (index, &longer[..])).collect();
        let codes: Vec<(u8, &str)> = (32..32 + texts).map(|code| (code, &long[..])).collect();
        let mut from = Pair::<Vehicle>::fresh();
        let (most, last) = quick_texts.split_at(63);
        let settings = [quick(Replace, most), quick(Add, last), status(Replace, &codes)];
        let slots: Vec<_> = (0..groups).map(slot).collect();
        assert_eq!(from.told(&request(&[&settings[..], &slots].concat())), (0, 0));
        assert_eq!(stops(&mut from, &mut Pair::<Handheld>::fresh()), fresh, "{texts} {groups}");
        let mut to = Pair::<Handheld>::fresh();
        assert_eq!(to.told(&request(&[slot(15), lines(2), quick(Replace, &[(6, "C3")])])), (0, 0));
        assert_eq!(foreseen(&from.set, &to.set), other, "{texts} {groups}");
        assert_eq!(stops(&mut from, &mut to), other, "{texts} {groups}");
    }
}

#[test]
fn channels_that_fit_and_channels_that_do_not() {
    for (count, stopped) in
        [(0, None), (63, None), (64, None), (65, Some((4, 2, 1))), (256, Some((4, 2, 1)))]
    {
        assert_stops(0, count, stopped);
        assert_stops(32, count, stopped);
    }
    // What is wrong first counts.
    assert_stops(33, 65, Some((1, 2, 34)));
    assert_stops(128, 256, Some((1, 12, 0)));
}

/// All ten are taken, and the other's export is the same, byte by byte.
fn assert_same<F: Tried, T: Tried>(from: &mut Pair<F>, to: &mut Pair<T>) {
    assert_eq!(stops(from, to), None);
    assert_eq!(to.set.tables, from.set.tables);
    assert!(exported(to) == exported(from));
}

#[test]
fn what_fits_goes_both_ways() {
    for (lines, channels) in [(0, 0), (1, 64), (32, 0), (32, 64)] {
        let mut vehicle = holding::<Vehicle>(lines, channels);
        let mut handheld = other();
        assert_same(&mut vehicle, &mut handheld);
        assert_same(&mut handheld, &mut holding::<Vehicle>(128, 256));
        assert_same(&mut handheld, &mut Pair::<Vehicle>::fresh());
    }
}

/// Whatever either holds: a hand-held's is taken by every vehicle and by every fresh hand-held, and a vehicle's by every vehicle.
#[test]
fn a_handhelds_export_is_always_taken() {
    let (mut handheld, mut vehicle) = (Pair::<Handheld>::fresh(), Pair::<Vehicle>::fresh());
    for seed in 9_400..9_440 {
        let mut inputs = [Inputs::new(seed, HANDHELD), Inputs::new(seed, VEHICLE)];
        for _ in 0..30 {
            handheld.commit(&inputs[0].message());
            vehicle.commit(&inputs[1].message());
        }
        let mut other = vehicle.clone();
        assert_same(&mut handheld, &mut other);
        assert_same(&mut vehicle, &mut other);
        assert_same(&mut handheld.clone(), &mut handheld);
        assert_same(&mut handheld, &mut Pair::<Handheld>::fresh());
    }
}

/// Whatever a vehicle holds, a hand-held stops where the rules say, or not at all, and then has the same tables. A fresh one does not stop exactly if lines,
/// channels and texts fit.
#[test]
fn many_vehicles_to_many_handhelds() {
    let mut met = [0; 4];
    for seed in 9_500..9_560 {
        let mut inputs = [Inputs::new(seed, VEHICLE), Inputs::new(!seed, HANDHELD)];
        let (mut from, mut to) = (Pair::<Vehicle>::fresh(), Pair::<Handheld>::fresh());
        let mut random = Random::new(seed);
        for _ in 0..20 {
            from.commit(&inputs[0].message());
            to.commit(&inputs[1].message());
            if seed % 2 == 0 {
                // Lines and channels that fit, and more texts.
                let none = request(&[lines(0), channels(Replace, &[])]);
                assert_eq!(from.told(&none), (0, 0));
                from.commit(&texts::fill(&mut random, &from.set).bytes());
            }
            let wanted = foreseen(&from.set, &to.set);
            let stopped = stops(&mut from, &mut to);
            assert_eq!(stopped, wanted, "seed {seed}");
            assert!(stopped.is_some() || to.set.tables == from.set.tables, "seed {seed}");
            let (lines, channels) = from.set.counts();
            let fits = lines <= 32 && channels <= 64 && from.set.tables.text_bytes() <= 4_096;
            assert_eq!(stops(&mut from, &mut Pair::<Handheld>::fresh()).is_none(), fits);
            assert!(fits || stopped.is_some(), "seed {seed}");
            met[stopped.map_or(0, |(part, ..)| match part {
                1 => 1,
                4 => 2,
                _ => 3,
            })] += 1;
        }
    }
    println!("{met:?}: taken, stopped at the lines, at the channels, at texts");
    assert!(met.iter().all(|&times| times > 50), "{met:?}");
}

/// A hand-held's and a vehicle's store are none of each other's, to every call.
#[test]
fn each_kind_has_its_own_bytes() {
    let (mut small, mut large) = (Pair::<Handheld>::fresh().bytes, Pair::<Vehicle>::fresh().bytes);
    assert_eq!((small.len(), large.len()), (24_576, 49_152));
    otap_tests::values::refused_by_all::<Vehicle>(&mut small);
    otap_tests::values::refused_by_all::<Handheld>(&mut large);
    assert_eq!(number_of(&VehicleStore::open(&mut small)), 11);
    assert_eq!(number_of(&Store::open(&mut large)), 11);
    for size in [24_576, 49_151, 49_153] {
        let mut bytes = patterned(size);
        assert_eq!(number_of(&VehicleStore::start(&mut bytes)), 11, "{size}");
        assert!(bytes == patterned(size));
    }
    every_call_refuses::<Vehicle>(small);
    every_call_refuses::<Handheld>(large);
    // With as many bytes as the other's it is none either: they are all 0 behind the tables, and the lines stand elsewhere.
    let mut full = holding::<Handheld>(32, 64).bytes;
    full.resize(49_152, 0);
    assert_eq!(number_of(&VehicleStore::open(&mut full)), 11);
}

/// The calls of a kind on another's store.
fn every_call_refuses<K: Tried>(store: Vec<u8>) {
    let mut pair = Pair::<K>::of(store, otap_reference::reference::tables::Set::fresh(K::LIMITS));
    let home = hex_request(&["CD 00 05 07 E4 C0"]);
    assert_eq!([pair.judge(&home), pair.commit(&home), pair.count()], [11; 3]);
    assert_eq!(pair.export_into(1, K::LONGEST_MESSAGE), 11);
    assert_eq!(pair.show_into(1, 0, otap::SCRATCH_ROOM), 11);
    assert_eq!(pair.call_from(otap::PSTN, &[3]), Err(11));
    assert_eq!(pair.report_into(&query(&[0xCE]), 1, K::LONGEST_MESSAGE), Err(11));
}

/// The sizes of the face are those of the reference.
#[test]
fn sizes_of_both() {
    fn limits<K: Tried>() -> Limits {
        let (lines, channels) = (Set::<K>::MOST_LINES, Set::<K>::MOST_CHANNELS);
        assert_eq!(Set::<K>::EXPORT_ROOM, Set::<K>::LONGEST_MESSAGE);
        assert_eq!(Set::<K>::REPORT_ROOM, Set::<K>::LONGEST_MESSAGE);
        let (message, store) = (Set::<K>::LONGEST_MESSAGE, Set::<K>::STORE_SIZE);
        let texts = Set::<K>::TEXT_BYTES.map_or(Texts::Placed, Texts::Shared);
        Limits { lines, channels, message, store, texts }
    }
    assert_eq!((limits::<Handheld>(), limits::<Vehicle>()), (HANDHELD, VEHICLE));
    assert_eq!((otap::JOIN_ROOM, otap::VEHICLE_JOIN_ROOM), (HANDHELD.message, VEHICLE.message));
    assert_eq!((otap::STORE_SIZE, otap::LONGEST_MESSAGE), (HANDHELD.store, HANDHELD.message));
    assert_eq!((otap::MOST_LINES, otap::MOST_CHANNELS), (HANDHELD.lines, HANDHELD.channels));
    assert_eq!((otap::EXPORT_ROOM, otap::REPORT_ROOM), (HANDHELD.message, HANDHELD.message));
}

/// 256 channels, asked for 255 times, are 65,280 parameters and 256 messages: 4, of every index; asked for 254 times they are 255.
#[test]
fn a_report_of_over_255_messages() {
    let mut pair = holding::<Vehicle>(0, 256);
    for index in [0, 1, 255, 256, u32::MAX] {
        assert_eq!(pair.report_into(&query(&[0xCE; 255]), index, 8_192), Err(4), "{index}");
    }
    let mut buffer = patterned(8_192);
    let refusal = pair.store().report(&query(&[0xCE; 255]), 1, &mut buffer);
    assert_eq!(refusal, Err(Refusal::BadField));
    let told = pair.report_into(&query(&[0xCE; 254]), 255, 8_192);
    assert!(told.is_ok_and(|told| told.total == 255));
    assert_eq!(pair.report_into(&query(&[0xCE; 254]), 256, 8_192), Err(16));
    let mut fewer = holding::<Vehicle>(0, 255);
    assert!(fewer
        .report_into(&query(&[0xCE; 255]), 255, 8_192)
        .is_ok_and(|told| told.total == 255));
}

/// A message of 8,192 bytes is read, and one of 8,193 is not; buffers of 8,191 are too short.
#[test]
fn messages_and_buffers_of_a_vehicle() {
    let mut pair = holding::<Vehicle>(128, 256);
    let mut message = hex_request(&["CD 00 05 07 E4 C0"]);
    message[2..4].fill(0);
    for (size, number) in [(4_096, 4), (4_097, 4), (8_191, 4), (8_192, 4), (8_193, 12)] {
        message.resize(size, 0);
        assert_eq!(pair.told(&message), (number, 0), "{size}");
    }
    for (room, number) in [(4_096, 15), (8_191, 15), (8_192, 0)] {
        assert_eq!(pair.export_into(1, room), number, "{room}");
        let told = pair.report_into(&query(&[0xCA]), 1, room);
        assert_eq!(told.err().unwrap_or(0), number, "{room}");
    }
}
