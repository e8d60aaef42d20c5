//! Proposals between two stores: of each part, refused in order, for slots that grow first, and between neighbours, by the archive and by the reference.

use otap::{Part, Refusal};
use otap_reference::inputs::updating::{neighbour, SLOT_PARTS};
use otap_reference::reference::export::part_bytes;
use otap_tests::for_both_sets;
use otap_tests::pair::{patterned, Pair};
use otap_tests::sets::Tried;
use otap_tests::texts::{holding, many_sets, no_room};
use otap_tests::updating::{checked, proposed, proposed_into, Lent};
use otap_tests::{bytes, hex_request};
use std::collections::BTreeMap;

for_both_sets!(
    by_hand,
    each_part,
    key_home_and_system_are_one_part,
    no_part_or_several,
    refusals_in_order,
    buffers_of_every_size,
    slots_that_grow_first,
    between_neighbours,
);

/// By part: a setting that changes its tables and no other's.
const CHANGES: [&str; 10] = [
    "CA 00 0A 40 01 12 3F 00 41 00 00",
    "CF 00 05 00 28 A0",
    "CC 00 08 41 06 00 41 00 00",
    "CE 00 06 40 01 28 0F",
    "D0 00 09 40 01 7F 00 42 00 00",
    "D1 00 0B 60 0F 10 00 01 00 41 00 00",
    "D2 00 0B 40 0F 10 00 01 00 41 00 00",
    "C8 00 0C 54 80 01 10 00 02 00 41 00 00",
    "C9 00 09 5C 01 10 03 EA 00 00",
    "D3 00 09 40 0F 7F 00 41 00 00",
];

const HASH: &str = "FF 00 07 01 01 02 03 04";

/// A store of a set with a line and a channel, after a request with these settings.
fn after<K: Tried>(settings: &[&str]) -> Lent {
    let mut pair = Pair::<K>::fresh();
    let before = ["CA 00 0B 42 01 23 45 FF 00 41 00 00", "CE 00 06 40 01 0F 1F", HASH];
    for settings in [&before[..], settings] {
        assert!(settings.is_empty() || pair.told(&hex_request(settings)) == (0, 0));
    }
    Lent::of(&pair.set)
}

fn by_hand<K: Tried>() {
    let [first, second] = [&[][..], &CHANGES[3..4]].map(after::<K>);
    let wanted = bytes("02 02 00 0C 08 07 08 01 CE 00 07 C0 02 0F 12 80");
    let mut buffer = patterned(K::LONGEST_MESSAGE + 9);
    assert_eq!(K::propose(&first.bytes, &second.bytes, &mut buffer), Ok(&wanted[..]));
    assert!(buffer[16..] == patterned(K::LONGEST_MESSAGE + 9)[16..], "bytes behind it stay");
    assert_eq!(K::otap_propose(&first.bytes, &second.bytes, &mut buffer), 16 << 16);
    assert_eq!(K::otap_propose(&first.bytes, &first.bytes, &mut buffer), 19);
    assert_eq!(K::otap_propose(&[], &second.bytes, &mut buffer), 11);
    assert_eq!(K::otap_propose(&first.bytes, &second.bytes, &mut buffer[..9]), 15);
    assert_eq!(proposed::<K>(&first, &second), Ok(wanted));
}

/// What the export of the second has for the part, which is an update; there and back.
fn each_part<K: Tried>() {
    for (part, change) in Part::ALL.iter().zip(CHANGES) {
        let stores = [&[][..], &[change], &[change, HASH]].map(after::<K>);
        for (from, to) in [(0, 1), (1, 0), (0, 2), (2, 0)] {
            let (first, second) = (&stores[from], &stores[to]);
            let message = proposed::<K>(first, second).expect("one part differs");
            let (mut held, mut buffer) = (second.bytes.clone(), vec![0; K::LONGEST_MESSAGE]);
            let exported = otap::Set::<K>::lent(&mut held).export(*part, &mut buffer);
            assert_eq!(exported, Ok(&message[..]), "{part:?}");
            assert_eq!(checked::<K>(first, second, &message), Ok(true), "{part:?}");
        }
        assert_eq!(proposed::<K>(&stores[1], &stores[2]), Err(19), "the hash alone");
    }
}

fn key_home_and_system_are_one_part<K: Tried>() {
    let changes = ["CB 00 06 68 10 00 01", "CD 00 05 07 E4 C0", "CF 00 05 00 28 A0"];
    let first = after::<K>(&[]);
    for settings in (0..3).flat_map(|from| (from + 1..=3).map(move |to| from..to)) {
        let second = after::<K>(&changes[settings]);
        let message = proposed::<K>(&first, &second).expect("one part differs");
        assert_eq!((message[7], message[8]), (3, 0xCB));
        assert_eq!(checked::<K>(&first, &second, &message), Ok(true));
    }
}

fn no_part_or_several<K: Tried>() {
    let first = after::<K>(&[]);
    assert_eq!(proposed::<K>(&first, &first), Err(19));
    for (one, other) in (0..10).flat_map(|one| (one + 1..10).map(move |other| (one, other))) {
        let second = after::<K>(&[CHANGES[one], CHANGES[other]]);
        assert_eq!(proposed::<K>(&first, &second), Err(19), "{one} {other}");
        assert_eq!(proposed::<K>(&second, &first), Err(19), "{one} {other}");
    }
    assert_eq!(proposed::<K>(&first, &after::<K>(&CHANGES)), Err(19));
}

/// 11 of either store, 15, 19: each with all that comes behind it.
fn refusals_in_order<K: Tried>() {
    let (good, none) = (after::<K>(&[]), Lent::no_store(vec![0; K::STORE_SIZE]));
    let short = K::LONGEST_MESSAGE - 1;
    for room in [0, short, K::LONGEST_MESSAGE] {
        for (first, second) in [(&none, &good), (&good, &none), (&none, &none)] {
            assert_eq!(proposed_into::<K>(first, second, room), Err(11));
        }
    }
    assert_eq!(proposed_into::<K>(&good, &good, short), Err(15));
    assert_eq!(proposed_into::<K>(&good, &good, K::LONGEST_MESSAGE), Err(19));
    let mut buffer = vec![0; K::LONGEST_MESSAGE];
    let said = K::propose(&good.bytes, &good.bytes, &mut buffer);
    assert_eq!(said, Err(Refusal::NoSinglePart));
    for size in [0, 24_576, 49_152, K::STORE_SIZE - 1, K::STORE_SIZE + 1] {
        let other = Lent::no_store(vec![0; size]);
        assert_eq!(proposed::<K>(&other, &good), Err(11), "{size}");
        assert_eq!(proposed::<K>(&good, &other), Err(11), "{size}");
    }
}

fn buffers_of_every_size<K: Tried>() {
    let [first, second] = [&[][..], &CHANGES[3..4]].map(after::<K>);
    for room in (0..K::LONGEST_MESSAGE).step_by(97).chain([K::LONGEST_MESSAGE - 1]) {
        assert_eq!(proposed_into::<K>(&first, &second, room), Err(15), "{room}");
        assert_eq!(proposed_into::<K>(&first, &first, room), Err(15), "{room}");
    }
    let wanted = proposed::<K>(&first, &second);
    for more in [1, K::LONGEST_MESSAGE, 65_536] {
        assert_eq!(proposed_into::<K>(&first, &second, K::LONGEST_MESSAGE + more), wanted);
    }
}

/// In a full area the texts of two slots change places: where the first grows before the second shrinks, a hand-held has no room, though the end fits.
fn slots_that_grow_first<K: Tried>() {
    let text = "8B 66 ".repeat(16);
    let long = |index| format!("D1 00 29 60 0{index} 10 00 01 {text} 00 00");
    let short = |index| format!("D1 00 09 60 0{index} 10 00 01 00 00");
    let holds = |settings: [String; 2]| {
        let mut pair = holding::<K>(35);
        assert_eq!(pair.told(&hex_request(&[&settings[0], &settings[1]])), (0, 0));
        assert_eq!(pair.set.tables.text_bytes(), 4_096);
        pair
    };
    let (early, late) = (holds([long(0), short(1)]), holds([short(0), long(1)]));
    for (first, second, wanted) in [(&early, &late, (0, 0)), (&late, &early, no_room::<K>(1))] {
        let [one, other] = [first, second].map(|pair| Lent::of(&pair.set));
        let message = proposed::<K>(&one, &other).expect("one part differs");
        assert_eq!(first.clone().told(&message), wanted);
        assert_eq!(checked::<K>(&one, &other, &message), Ok(wanted == (0, 0)));
    }
}

/// The check says yes to a proposal exactly where the first takes it: a vehicle always, and a hand-held but for the parts that go slot by slot.
fn between_neighbours<K: Tried>() {
    let mut met = BTreeMap::<(Option<u8>, u8), usize>::new();
    many_sets::<K>(K::seeds(10_300, 60), |random, pair| {
        for _ in 0..4 {
            let other = neighbour(random, &pair.set);
            let (first, second) = (Lent::of(&pair.set), Lent::of(&other));
            let message = match proposed::<K>(&first, &second) {
                Ok(message) => message,
                Err(number) => {
                    *met.entry((None, number)).or_default() += 1;
                    continue;
                }
            };
            let part = (1..=10).find(|&part| part_bytes(part, &other).as_ref() == Some(&message));
            let part = part.expect("it is a part of the second");
            let (number, _) = pair.clone().told(&message);
            assert_eq!(checked::<K>(&first, &second, &message), Ok(number == 0), "part {part}");
            let may_lack_room = K::TEXT_BYTES.is_some() && SLOT_PARTS.contains(&part);
            assert!(number == 0 || may_lack_room && number == 2, "part {part}: {number}");
            *met.entry((Some(part), number)).or_default() += 1;
        }
    });
    println!("{met:?}");
    assert!(met[&(None, 19)] > 100 / K::SHARE);
    assert!((1..=10).all(|part| met[&(Some(part), 0)] > 10));
    let lacking = SLOT_PARTS.iter().filter_map(|&part| met.get(&(Some(part), 2)));
    assert_eq!(lacking.sum::<usize>() > 10, K::TEXT_BYTES.is_some());
}
