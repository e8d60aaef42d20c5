//! Two requests under one header: by hand, refused in order, cut and changed anywhere, and of every kind, by the archive and by the reference.

use otap::{NotJoined, Refusal};
use otap_reference::inputs::calls::Calls;
use otap_reference::inputs::draft::Draft;
use otap_reference::inputs::joining::wrong::{wrong_pair, Wrong};
use otap_reference::inputs::joining::JoinInput;
use otap_reference::inputs::random::Random;
use otap_reference::inputs::requests::fill;
use otap_reference::reference::joining::Refused;
use otap_reference::reference::message::request_as;
use otap_reference::reference::tables::Set;
use otap_reference::reference::texts::Coding;
use otap_tests::for_both_sets;
use otap_tests::joining::{join_by_both, join_into};
use otap_tests::pair::patterned;
use otap_tests::sets::Tried;
use otap_tests::{bytes, hex_request};
use std::collections::{BTreeMap, BTreeSet};

for_both_sets!(
    by_hand,
    a_new_header,
    refusals_in_order,
    what_is_wrong_with_the_pair_comes_last,
    at_most_255_settings,
    as_long_as_a_message,
    buffers_of_every_size,
    cut_and_changed_anywhere,
    every_wrong_pair,
    pairs_of_every_kind,
);

const HOME: &str = "CD 00 05 07 E4 C0";
/// Adds PABX 2345 without a text and PABX 123 with one.
const LINES: &str = "02 02 00 14 08 07 08 01 CA 00 0F 42 02 23 45 FF 00 00 12 3F 00 41 00 00";
/// Replaces the channels by 241 and 640.
const CHANNELS: &str = "02 02 00 0C 08 07 08 01 CE 00 07 C0 02 0F 12 80";

fn homes(count: usize) -> Vec<u8> {
    hex_request(&vec![HOME; count])
}

/// A request of so many bytes.
fn of_size<K: Tried>(size: usize) -> Vec<u8> {
    let (mut random, set) = (Random::new(size as u64), Set::fresh(K::LIMITS));
    let mut draft = Draft::of(&mut random, K::LIMITS, Coding::Unicode);
    fill(&mut random, &set, &mut draft, size);
    let message = draft.bytes();
    assert_eq!(message.len(), size);
    message
}

fn of_neither(number: u8) -> Refused {
    Refused { number, failed: 0, second: false }
}

fn by_hand<K: Tried>() {
    let wanted = bytes(
        "02 02 00 1C 08 07 08 02 CA 00 0F 42 02 23 45 FF 00 00 12 3F 00 41 00 00 \
         CE 00 07 C0 02 0F 12 80",
    );
    let mut buffer = patterned(K::LONGEST_MESSAGE + 9);
    let joined = K::join(&bytes(LINES), &bytes(CHANNELS), &mut buffer);
    assert_eq!(joined, Ok(&wanted[..]));
    assert!(buffer[32..] == patterned(K::LONGEST_MESSAGE + 9)[32..], "bytes behind it stay");
    assert_eq!(K::otap_join(&bytes(LINES), &bytes(CHANNELS), &mut buffer), 32 << 16);
    assert_eq!(join_by_both::<K>(&bytes(LINES), &bytes(CHANNELS)), Ok(wanted));
    let turned = bytes(
        "02 02 00 1C 08 07 08 02 CE 00 07 C0 02 0F 12 80 \
         CA 00 0F 42 02 23 45 FF 00 00 12 3F 00 41 00 00",
    );
    assert_eq!(join_by_both::<K>(&bytes(CHANNELS), &bytes(LINES)), Ok(turned));
    let home = homes(1);
    assert_eq!(join_by_both::<K>(&home, &home), Ok(homes(2)), "a request and itself");
}

/// A length of 0 is written as the true one and reserved bits of the header as 0; those of the settings stay.
fn a_new_header<K: Tried>() {
    let (home, channel) = ("CD 00 05 07 E4 DF", "CE 00 06 7C 01 0F 1F");
    let heads = [
        ("02 02 00 0A 08 X7 08 01", "02 02 00 0B 08 X7 08 01"),
        ("02 02 00 00 08 X7 08 01", "02 02 00 0B 08 07 08 01"),
        ("02 02 00 0A 08 07 08 01", "02 02 00 00 08 X7 08 01"),
        ("02 02 00 00 08 X4 08 01", "02 02 00 00 08 X4 08 01"),
    ];
    for (reserved, (first, second)) in (0..16).flat_map(|bits| heads.map(|heads| (bits, heads))) {
        let said = |head: &str, setting| {
            bytes(&format!("{} {setting}", head.replace('X', &format!("{reserved:X}"))))
        };
        let coding = &first[16..17];
        let wanted = bytes(&format!("02 02 00 11 08 0{coding} 08 02 {home} {channel}"));
        assert_eq!(join_by_both::<K>(&said(first, home), &said(second, channel)), Ok(wanted));
    }
}

/// One of each kind of fault, in the order of D8, each with what comes behind it wrong too where that can be.
fn faults() -> Vec<(Vec<u8>, Refusal, u8)> {
    [
        ("02 03 00 09 09 00", Refusal::MessageLength, 0),
        ("02 03 00 09 09 00 12 00", Refusal::WrongCarrier, 0),
        ("02 02 00 00 08 00 12 00", Refusal::WrongMessageType, 0),
        ("02 02 00 00 08 00 10 00", Refusal::WrongVersion, 0),
        ("02 02 00 00 08 07 08 00 C7", Refusal::BadField, 0),
        ("02 02 00 00 08 05 08 02 C7", Refusal::BadField, 0),
        ("02 02 00 00 08 07 08 02 C7 FF 00 03 00 CD 00", Refusal::UnknownType, 1),
        ("02 02 00 00 08 07 08 02 CD 00 05 07 E4 E0 FF 00 03 00 CD", Refusal::BadField, 1),
        ("02 02 00 00 08 07 08 02 CD 00 05 07 E4 C0 C7", Refusal::UnknownType, 2),
        ("02 02 00 00 08 07 08 02 CD 00 05 07 E4 C0 FF 00 03 00 CD", Refusal::BadField, 0),
        ("02 02 00 00 08 07 08 02 CD 00 05 07 E4 C0 FF 00 03 00", Refusal::BadField, 2),
    ]
    .map(|(hex, refusal, failed_id)| (bytes(hex), refusal, failed_id))
    .to_vec()
}

/// The face's refusal, every bit of the C answer by hand, and the buffer as it was.
fn refused<K: Tried>(first: &[u8], second: &[u8], wanted: NotJoined) {
    let mut buffer = patterned(K::LONGEST_MESSAGE);
    assert_eq!(K::join(first, second, &mut buffer), Err(wanted), "{first:02X?} {second:02X?}");
    let number = u64::from(wanted.refusal.number());
    let packed = number | u64::from(wanted.failed_id) << 8 | u64::from(wanted.second) << 32;
    assert_eq!(K::otap_join(first, second, &mut buffer), packed, "{first:02X?} {second:02X?}");
    assert!(buffer == patterned(K::LONGEST_MESSAGE), "a refusal writes nothing");
    assert!(join_by_both::<K>(first, second).is_err());
}

/// All that is wrong with the first comes before anything of the second, and the buffer before both.
fn refusals_in_order<K: Tried>() {
    let good = homes(1);
    for (wrong, refusal, failed_id) in faults() {
        refused::<K>(&wrong, &good, NotJoined { refusal, failed_id, second: false });
        refused::<K>(&good, &wrong, NotJoined { refusal, failed_id, second: true });
        for (other, ..) in faults() {
            refused::<K>(&wrong, &other, NotJoined { refusal, failed_id, second: false });
            assert_eq!(join_into::<K>(&wrong, &other, K::LONGEST_MESSAGE - 1), Err(of_neither(15)));
        }
    }
}

/// Behind all of both: two coding types, too many settings, too many bytes.
fn what_is_wrong_with_the_pair_comes_last<K: Tried>() {
    let pair = |refusal| NotJoined { refusal, failed_id: 0, second: false };
    let long = of_size::<K>(K::LONGEST_MESSAGE - 96);
    let narrow = request_as(Coding::Eight, &vec![bytes(HOME); 255]);
    refused::<K>(&narrow, &long, pair(Refusal::BadField));
    refused::<K>(&long, &narrow, pair(Refusal::BadField));
    let wide = homes(255);
    refused::<K>(&wide, &long, pair(Refusal::BadField));
    refused::<K>(&long, &wide, pair(Refusal::BadField));
    refused::<K>(&homes(17), &long, pair(Refusal::MessageLength));
    assert!(join_by_both::<K>(&homes(16), &long).is_ok());
    for (wrong, refusal, failed_id) in faults() {
        refused::<K>(&wrong, &narrow, NotJoined { refusal, failed_id, second: false });
        refused::<K>(&narrow, &wrong, NotJoined { refusal, failed_id, second: true });
    }
}

fn at_most_255_settings<K: Tried>() {
    for first in 1..255 {
        assert_eq!(
            join_by_both::<K>(&homes(first), &homes(255 - first)),
            Ok(homes(255)),
            "{first}"
        );
        assert_eq!(
            join_by_both::<K>(&homes(first), &homes(256 - first)),
            Err(of_neither(4)),
            "{first}"
        );
    }
    assert_eq!(join_by_both::<K>(&homes(255), &homes(255)), Err(of_neither(4)));
}

/// Two headers become one: 8 bytes fewer.
fn as_long_as_a_message<K: Tried>() {
    let (most, of_size) = (K::LONGEST_MESSAGE, of_size::<K>);
    for first in [14, 300, most / 2 + 4, most - 96, most - 16, most - 6] {
        let second = most + 8 - first;
        let just = join_by_both::<K>(&of_size(first), &of_size(second)).expect("just so long");
        assert_eq!((just.len(), &just[2..4]), (most, &(most as u16 - 4).to_be_bytes()[..]));
        let over = join_by_both::<K>(&of_size(first), &of_size(second + 1));
        assert_eq!(over, Err(of_neither(12)), "{first}");
    }
    assert_eq!(join_by_both::<K>(&of_size(most), &of_size(most)), Err(of_neither(12)));
}

fn buffers_of_every_size<K: Tried>() {
    let (good, none) = (homes(1), Vec::new());
    for room in (0..K::LONGEST_MESSAGE).step_by(97).chain([K::LONGEST_MESSAGE - 1]) {
        for (first, second) in [(&good, &good), (&none, &good), (&good, &none), (&none, &none)] {
            assert_eq!(join_into::<K>(first, second, room), Err(of_neither(15)), "{room}");
        }
    }
    for room in [
        K::LONGEST_MESSAGE,
        K::LONGEST_MESSAGE + 1,
        2 * K::LONGEST_MESSAGE,
        65_536 + K::LONGEST_MESSAGE,
    ] {
        assert_eq!(join_into::<K>(&good, &good, room), Ok(homes(2)), "{room}");
    }
}

/// The number, and whether the second request is at fault.
fn told(joined: Result<(), Refused>) -> (u8, bool) {
    joined.map_or_else(|no| (no.number, no.second), |()| (0, false))
}

/// All that two requests can come to, in order.
fn kinds() -> Vec<(u8, bool)> {
    let of = |number| [(number, false), (number, true)];
    [vec![(0, false)], [1, 3, 4, 12, 13, 14].map(of).concat()].concat()
}

/// Every cut of either, and every byte of either changed to every other.
fn cut_and_changed_anywhere<K: Tried>() {
    let (lines, channels) = (bytes(LINES), bytes(CHANNELS));
    let mut met: BTreeMap<(u8, bool), usize> = BTreeMap::new();
    let mut note = |joined: Result<Vec<u8>, Refused>| {
        *met.entry(told(joined.map(|_| ()))).or_default() += 1;
    };
    for cut in 0..lines.len() {
        note(join_by_both::<K>(&lines[..cut], &channels));
        note(join_by_both::<K>(&channels, &lines[..cut]));
    }
    for (place, byte) in (0..lines.len()).flat_map(|place| (0..=255).map(move |byte| (place, byte)))
    {
        let mut changed = lines.clone();
        changed[place] = byte;
        note(join_by_both::<K>(&changed, &channels));
        note(join_by_both::<K>(&channels, &changed));
    }
    println!("{met:?}");
    assert!(met.keys().copied().eq(kinds()));
    assert!(met[&(0, false)] > 1_000);
}

/// One thing is wrong, which is known; of one request it is in either of them.
fn every_wrong_pair<K: Tried>() {
    for wrong in Wrong::ALL {
        let mut met = BTreeSet::new();
        for seed in 9_000..9_040 {
            let JoinInput { first, second, answer } =
                wrong_pair(&mut Random::new(seed), &Set::fresh(K::LIMITS), wrong);
            let said = join_by_both::<K>(&first, &second).map(|_| ());
            assert_eq!(Some(said), answer, "{wrong:?}: {first:02X?} {second:02X?}");
            met.insert(said.map_err(|no| no.second));
        }
        let of_pair = matches!(wrong, Wrong::TwoCodings | Wrong::TooMany | Wrong::TooLong);
        assert_eq!(met.contains(&Err(true)), !of_pair, "{wrong:?}: {met:?}");
    }
}

/// Also with buffers that are too short, which is all that is said then.
fn pairs_of_every_kind<K: Tried>() {
    let mut met: BTreeMap<(u8, bool), usize> = BTreeMap::new();
    for seed in 9_100..9_160 {
        let mut calls = Calls::new(seed, K::LIMITS);
        for _ in 0..40 {
            calls.call();
            let (JoinInput { first, second, answer }, room) = calls.join();
            let said = join_into::<K>(&first, &second, room).map(|_| ());
            let foreseen =
                if room < K::LONGEST_MESSAGE { Some(Err(of_neither(15))) } else { answer };
            assert_eq!(said, foreseen.unwrap_or(said), "{room}: {first:02X?} {second:02X?}");
            *met.entry(told(said)).or_default() += 1;
        }
    }
    println!("{met:?}");
    let kinds = kinds().into_iter().chain([(15, false)]);
    assert!(met.keys().copied().eq(kinds));
    assert!(met.values().all(|&count| count > 10) && met[&(0, false)] > 1_000);
}
