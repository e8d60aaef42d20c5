//! What a joined request leaves in a store, beside its two in turn; and requests that are sent twice: by the archives and by the reference.

use otap_reference::inputs::joining::{good_pair, replacing};
use otap_reference::inputs::random::Random;
use otap_reference::inputs::Inputs;
use otap_reference::reference::settings::Operation;
use otap_tests::for_both_sets;
use otap_tests::pair::Pair;
use otap_tests::sets::Tried;
use otap_tests::{bytes, channels, hex_request, lines_add, request};

for_both_sets!(
    both_are_taken,
    one_lacks_room,
    counted_through_to_255,
    any_two_that_may_be_joined,
    any_replaces_sent_twice,
    a_channel_add_sent_twice,
);

const HOME: &str = "CD 00 05 07 E4 C0";
/// A reply, no restart, and a hash.
const LAST: &str = "FF 00 07 41 12 34 56 78";

/// After a request with these settings.
fn holding<K: Tried>(settings: &[Vec<u8>]) -> Pair<K> {
    let mut pair = Pair::<K>::fresh();
    assert_eq!(pair.told(&request(settings)), (0, 0));
    pair
}

fn add(count: usize) -> Vec<u8> {
    channels(Operation::Add, &vec![241; count])
}

fn both_are_taken<K: Tried>() {
    let mut pair = holding::<K>(&[add(1), bytes(LAST)]);
    let first = request(&[lines_add(&[&[2, 3, 4, 5], &[1, 2, 3]]), bytes(HOME)]);
    let second = request(&[channels(Operation::Replace, &[241, 640]), lines_add(&[&[7]])]);
    assert_eq!(pair.told_joined(&first, &second), (0, 0));
    let store = pair.store();
    let counts = store.counts().expect("a store");
    assert_eq!((counts.lines, counts.channels), (3, 2));
    assert_eq!(store.home_numbers(), Ok(otap::HomeNumbers { nzi: 15, np: 806 }));
}

/// Alone the second has room; behind the first it has not, and its failed ID is counted through.
fn one_lacks_room<K: Tried>() {
    let (first, second) =
        (request(&[bytes(HOME), add(K::MOST_CHANNELS - 4)]), request(&[bytes(HOME), add(5)]));
    assert_eq!(holding::<K>(&[add(1)]).told_joined(&first, &second), (2, 4));
    assert_eq!(holding::<K>(&[add(1)]).told_joined(&second, &first), (2, 4));
    assert_eq!(holding::<K>(&[add(5)]).told_joined(&first, &second), (2, 2));
    let replaced = request(&[channels(Operation::Replace, &[]), bytes(HOME)]);
    // Room that the first frees is the second's.
    assert_eq!(holding::<K>(&[add(K::MOST_CHANNELS)]).told_joined(&replaced, &first), (0, 0));
    assert_eq!(holding::<K>(&[add(K::MOST_CHANNELS)]).told_joined(&first, &replaced), (2, 2));
}

/// The largest failed ID.
fn counted_through_to_255<K: Tried>() {
    let first = hex_request(&[HOME; 127]);
    let second = request(&[vec![bytes(HOME); 127], vec![add(1)]].concat());
    assert_eq!(holding::<K>(&[add(K::MOST_CHANNELS)]).told_joined(&first, &second), (2, 255));
    assert_eq!(holding::<K>(&[add(K::MOST_CHANNELS - 1)]).told_joined(&first, &second), (0, 0));
}

/// Stores of every kind, as messages leave them.
fn many_stores<K: Tried>(
    seeds: std::ops::Range<u64>,
    mut each: impl FnMut(&mut Random, &mut Pair<K>),
) {
    for seed in seeds {
        let (mut inputs, mut random) = (Inputs::new(seed, K::LIMITS), Random::new(!seed));
        let mut pair = Pair::<K>::fresh();
        for _ in 0..15 {
            pair.commit(&inputs.message());
            each(&mut random, &mut pair);
        }
    }
}

/// Whatever a store holds: taken, or refused with 2 and nothing else.
fn any_two_that_may_be_joined<K: Tried>() {
    let mut met = [0; 3];
    many_stores::<K>(9_200..9_260, |random, pair| {
        let [first, second] = good_pair(random, &pair.set).map(|draft| draft.bytes());
        let (number, failed) = pair.told_joined(&first, &second);
        assert!(number == 0 || number == 2, "{first:02X?} {second:02X?}");
        met[if number == 0 { 0 } else { 1 + usize::from(failed > first[7]) }] += 1;
    });
    println!("{met:?}: taken, the first without room, the second");
    assert!(met[0] > 300 && met[1] > 50 && met[2] > 50, "{met:?}");
}

/// Replaces of each table, several of one among them, with and without an FF item: every byte of the store is the same.
fn any_replaces_sent_twice<K: Tried>() {
    let mut met = [0; 2];
    many_stores::<K>(9_300..9_360, |random, pair| {
        let message = replacing(random, &pair.set).bytes();
        let told = pair.told(&message);
        let once = pair.bytes.clone();
        assert_eq!(pair.told(&message), told, "{message:02X?}");
        assert!(pair.bytes == once, "sent twice: {message:02X?}");
        assert!(told.0 == 0 || told.0 == 2, "{message:02X?}");
        met[usize::from(told.0 == 2)] += 1;
    });
    println!("{met:?}: taken twice, without room twice");
    assert!(met[0] > 300 && met[1] > 10, "{met:?}");
}

/// A channel add appends, so that the second time differs: by one channel more, or by finding no room.
fn a_channel_add_sent_twice<K: Tried>() {
    let room = K::MOST_CHANNELS;
    for (count, again) in [(1, (0, 0)), (room / 2, (0, 0)), (room / 2 + 1, (2, 1)), (room, (2, 1))]
    {
        let mut pair = holding::<K>(&[add(count)]);
        let once = pair.bytes.clone();
        assert_eq!(pair.told(&request(&[add(count)])), again, "{count}");
        assert_eq!(pair.bytes == once, again.0 != 0, "{count}");
    }
    let mut pair = holding::<K>(&[channels(Operation::Replace, &[241, 640])]);
    let once = pair.bytes.clone();
    assert_eq!(pair.told(&request(&[channels(Operation::Replace, &[241, 640])])), (0, 0));
    assert!(pair.bytes == once, "a replace does not append");
}
