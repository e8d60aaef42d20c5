//! What the joined request leaves in a set, beside its two in turn; and requests that are sent twice.

use crate::inputs::joining::{good_pair, replacing};
use crate::inputs::random::Random;
use crate::inputs::Inputs;
use crate::reference::by_hand::{joined, number, number_of, request_of, taken};
use crate::reference::limits::{HANDHELD, VEHICLE};
use crate::reference::message::{request, Hash};
use crate::reference::settings::Operation::Replace;
use crate::reference::settings::{LineFlags, Setting, TextEntry};
use crate::reference::tables::{Line, Set};
use std::ops::Range;

/// Replaces the channels by 241 and 640; adds 241.
const CHANNELS: &str = "CE 00 07 C0 02 0F 12 80";
const ONE_CHANNEL: &str = "CE 00 06 40 01 0F 1F";
const HOME: &str = "CD 00 05 07 E4 C0";
const LAST: &str = "FF 00 07 C1 12 34 56 78";

/// What both come to in turn, the second's failed ID counted through: with the first's settings before it.
fn in_turn(set: &mut Set, first: &[u8], second: &[u8]) -> (u8, u8) {
    let said = number(set, first);
    if said.0 != 0 {
        return said;
    }
    let (number, failed) = number(set, second);
    (number, if number == 0 { 0 } else { first[7] + failed })
}

/// Number and failed ID of the joined request, which must be those of both in turn; the set must be the same too, or stay.
fn both_ways(set: &mut Set, first: &[u8], second: &[u8]) -> (u8, u8) {
    let before = set.clone();
    let mut turned = set.clone();
    let wanted = in_turn(&mut turned, first, second);
    let message = joined(first, second).expect("they may be joined");
    assert_eq!(number(set, &message), wanted, "{first:02X?} {second:02X?}");
    assert_eq!(*set, if wanted.0 == 0 { turned } else { before }, "{first:02X?} {second:02X?}");
    wanted
}

fn lines(count: u8) -> String {
    let entries: Vec<String> = (1..=count).map(|line| format!("{line:02} FF 00 00")).collect();
    format!("CA 00 {:02X} 40 {count:02X} {}", 4 + 4 * count, entries.join(" "))
}

/// Adds an even count of channels 241.
fn channels(count: u8) -> String {
    format!(
        "CE 00 {:02X} 40 {count:02X} {}",
        4 + count / 2 * 3,
        "0F 10 F1 ".repeat(count as usize / 2)
    )
}

#[test]
fn both_are_taken() {
    let mut set = taken(&[ONE_CHANNEL, LAST]);
    let first = request_of(&["CA 00 0F 42 02 23 45 FF 00 00 12 3F 00 41 00 00", HOME]);
    let second = request_of(&[CHANNELS, "CA 00 09 82 01 23 45 FF 00 00"]);
    assert_eq!(both_ways(&mut set, &first, &second), (0, 0));
    assert_eq!((set.tables.lines.len(), &set.tables.channels[..]), (1, &[241, 640][..]));
    // Neither has an item FF, so no hash is kept.
    assert_eq!(set.hash, Hash::Nothing);
}

#[test]
fn the_first_lacks_room() {
    let mut set = Set::fresh(HANDHELD);
    let first = request_of(&[&lines(33)]);
    for second in [HOME, &lines(33), CHANNELS] {
        assert_eq!(both_ways(&mut set, &first, &request_of(&[second])), (2, 1));
    }
    let first = request_of(&[HOME, &lines(32), "CA 00 07 42 01 1F 00 00", HOME]);
    assert_eq!(both_ways(&mut set, &first, &request_of(&[&lines(33)])), (2, 3));
    assert_eq!(set, Set::fresh(HANDHELD));
}

/// Alone it has room; behind the first it has not.
#[test]
fn the_second_lacks_room() {
    let (first, second) = ([channels(60)], [HOME, "CE 00 0C 40 05 0F 10 F1 0F 10 F1 0F 1F"]);
    let [first, second] = [request_of(&[&first[0]]), request_of(&second)];
    let mut set = Set::fresh(HANDHELD);
    assert_eq!(both_ways(&mut set, &second, &first), (2, 3));
    assert_eq!(both_ways(&mut set, &first, &second), (2, 3));
    assert_eq!(set, Set::fresh(HANDHELD));
    assert_eq!(number(&mut set, &second), (0, 0));
    let mut set = taken(&[&channels(60)]);
    assert_eq!(number(&mut set, &second), (2, 2));
}

/// Room that the first frees is used by the second, and by the joined one.
#[test]
fn freed_room() {
    let mut set = taken(&[&channels(64)]);
    let (first, second) = (request_of(&[HOME, "CE 00 04 C0 00"]), request_of(&[&channels(64)]));
    assert_eq!(number(&mut set.clone(), &second), (2, 1));
    assert_eq!(both_ways(&mut set, &first, &second), (0, 0));
    assert_eq!(both_ways(&mut set, &second, &first), (2, 1));
}

/// The largest failed ID.
#[test]
fn counted_through_to_255() {
    let mut set = taken(&[&channels(64)]);
    let first = request_of(&[HOME; 127]);
    let second = request_of(&[[HOME; 127].as_slice(), &[ONE_CHANNEL]].concat());
    assert_eq!(both_ways(&mut set, &first, &second), (2, 255));
}

/// Sets of every kind, as messages leave them.
fn many_sets(mut each: impl FnMut(&mut Random, &mut Set)) {
    for seed in 0..40 {
        let (mut inputs, mut random) = (Inputs::new(seed, HANDHELD), Random::new(!seed));
        let mut set = Set::fresh(HANDHELD);
        for _ in 0..15 {
            number(&mut set, &inputs.message());
            each(&mut random, &mut set);
        }
    }
}

/// Whatever a set holds: taken, or refused with 2 and nothing else.
#[test]
fn any_two_that_may_be_joined() {
    let mut met = [0; 3];
    many_sets(|random, set| {
        let [first, second] = good_pair(random, set).map(|draft| draft.bytes());
        let (said, failed) = both_ways(set, &first, &second);
        assert!(said == 0 || said == 2, "{first:02X?} {second:02X?}");
        met[if said == 0 { 0 } else { 1 + usize::from(failed > first[7]) }] += 1;
    });
    println!("{met:?}: taken, the first without room, the second");
    assert!(met[0] > 200 && met[1] > 30 && met[2] > 30, "{met:?}");
}

#[test]
fn a_replace_sent_twice() {
    let mut once = taken(&[&channels(64), LAST]);
    assert_eq!(number_of(&mut once, &[CHANNELS]), (0, 0));
    let mut twice = once.clone();
    assert_eq!(number_of(&mut twice, &[CHANNELS]), (0, 0));
    assert_eq!(twice, once);
    assert_eq!(once.tables.channels, [241, 640]);
}

/// It appends, and so the second time differs: by one more, or by finding no room.
#[test]
fn an_add_sent_twice() {
    let once = taken(&[ONE_CHANNEL]);
    let mut twice = once.clone();
    assert_eq!(number_of(&mut twice, &[ONE_CHANNEL]), (0, 0));
    assert_ne!(twice, once);
    assert_eq!(twice.tables.channels, [241, 241]);
    let mut full = taken(&[&channels(60)]);
    assert_eq!(number_of(&mut full, &[&channels(4)]), (0, 0));
    assert_eq!(number_of(&mut full, &[&channels(4)]), (2, 1));
}

/// The second time, texts of a later replace take the room of an earlier one: it is refused, and leaves what the first time left.
#[test]
fn a_replace_that_is_taken_once() {
    let entries = |keys: Range<u8>, units| {
        keys.map(|key| TextEntry { key, text: vec![0x8B66; units] }).collect()
    };
    let quick = |keys| Setting::QuickTexts { operation: Replace, entries: entries(keys, 23) };
    let status = Setting::StatusTexts { operation: Replace, entries: entries(32..96, 16) };
    let message = request(&[quick(0..32), quick(0..0), status].map(|setting| setting.write()));
    let mut set = Set::fresh(HANDHELD);
    let line =
        |digit| Line { digits: vec![digit], flags: LineFlags::default(), text: vec![65; 16] };
    set.tables.lines = (0..32).map(line).collect();
    assert_eq!(number(&mut set, &message), (0, 0));
    assert_eq!(set.tables.text_bytes(), 32 * 32 + 64 * 32);
    let once = set.clone();
    assert_eq!(number(&mut set, &message), (2, 1));
    assert_eq!(set, once);
    // A vehicle takes it as often as it is sent.
    let mut vehicle = Set { limits: VEHICLE, ..once.clone() };
    assert_eq!(number(&mut vehicle, &message), (0, 0));
    assert_eq!(vehicle.tables, once.tables);
}

/// Replaces of each table, several of one among them, with and without an item FF: the whole set is the same, hash and all, though the second time it may be
/// refused.
#[test]
fn any_replaces_sent_twice() {
    let mut met = [0; 2];
    many_sets(|random, set| {
        let message = replacing(random, set).bytes();
        let said = number(set, &message);
        let once = set.clone();
        let again = number(set, &message);
        assert!(again == said || (said.0, again.0) == (0, 2), "{message:02X?}");
        assert_eq!(*set, once, "{message:02X?}");
        assert!(said.0 == 0 || said.0 == 2, "{message:02X?}");
        met[usize::from(said.0 == 2)] += 1;
    });
    println!("{met:?}: taken twice, without room twice");
    assert!(met[0] > 200 && met[1] > 10, "{met:?}");
}
