//! Two requests that share no table, in either order (document 02, A13): what they leave, and when the one is taken after the other; by the archives and by the
//! reference.

use otap_reference::inputs::apart::{self, is_textless};
use otap_reference::inputs::maker::TYPES;
use otap_reference::reference::message::request_as;
use otap_reference::reference::settings::Operation::{Add, Delete, Replace};
use otap_reference::reference::texts::Coding;
use otap_tests::pair::Pair;
use otap_tests::sets::Tried;
use otap_tests::texts::{full, many_sets, no_room, quick, status};
use otap_tests::{bytes, channels, for_both_sets, hex_request, request, types_of};
use std::collections::BTreeSet;

for_both_sets!(
    channels_and_status_texts,
    key_home_and_system_are_three_tables,
    two_coding_types,
    the_order_matters_in_a_full_area,
    any_two_that_share_no_table,
    what_shares_a_table_is_another_matter,
);

/// What two requests come to in this order, and what they leave.
fn in_turn<K: Tried>(pair: &Pair<K>, first: &[u8], second: &[u8]) -> ([(u8, u8); 2], Pair<K>) {
    let mut turned = pair.clone();
    let told = [first, second].map(|message| turned.told(message));
    (told, turned)
}

/// Number and failed ID of a request before another and after it.
type Turns = [(u8, u8); 2];

const TAKEN: Turns = [(0, 0); 2];

/// Those of both, in both orders. Where all four are taken, the two orders leave the same store, byte for byte, which keeps no hash.
fn both_orders<K: Tried>(pair: &Pair<K>, one: &[u8], other: &[u8]) -> [Turns; 2] {
    let ([one_before, other_after], left) = in_turn(pair, one, other);
    let ([other_before, one_after], turned) = in_turn(pair, other, one);
    let told = [[one_before, one_after], [other_before, other_after]];
    if told == [TAKEN; 2] {
        assert!(left.bytes == turned.bytes, "the store after {one:02X?} {other:02X?}");
        assert_eq!(left.bytes[..11], [0; 11], "{one:02X?} {other:02X?}");
    }
    told
}

/// So many channels, and a hash to keep.
fn with_channels(count: usize) -> Vec<u8> {
    request(&[channels(Replace, &vec![241; count]), bytes("FF 00 07 41 12 34 56 78")])
}

/// The two desks: what the one has no room for, before the other or after it, does not bind that one.
fn channels_and_status_texts<K: Tried>() {
    let mut pair = full::<K>();
    assert_eq!(pair.told(&with_channels(K::MOST_CHANNELS - 1)), (0, 0));
    let texts = request(&[status(Add, &[(32, 16)]), status(Delete, &[(33, 0)])]);
    let long = request(&[status(Delete, &[(33, 0)]), status(Add, &[(127, 16), (126, 1)])]);
    let one = request(&[channels(Add, &[640])]);
    let two = request(&[channels(Add, &[640]), channels(Add, &[241])]);
    let full = [(2, 2); 2];
    assert_eq!(both_orders(&pair, &one, &texts), [TAKEN; 2]);
    assert_eq!(both_orders(&pair, &two, &texts), [full, TAKEN]);
    assert_eq!(both_orders(&pair, &one, &long), [TAKEN, [no_room::<K>(2); 2]]);
    assert_eq!(both_orders(&pair, &two, &long), [full, [no_room::<K>(2); 2]]);
}

/// One export part, but three types: they share no table.
fn key_home_and_system_are_three_tables<K: Tried>() {
    let mut pair = Pair::<K>::fresh();
    assert_eq!(pair.told(&with_channels(1)), (0, 0));
    let settings = ["CB 00 06 68 10 00 01", "CD 00 05 07 E4 C0", "CF 00 05 00 18 A0"];
    for (place, one) in settings.iter().enumerate() {
        for other in &settings[place + 1..] {
            let orders = both_orders(&pair, &hex_request(&[one]), &hex_request(&[other]));
            assert_eq!(orders, [TAKEN; 2], "{one} {other}");
        }
    }
}

/// The one in eight-bit characters, the other in 16-bit Unicode, and reserved bits.
fn two_coding_types<K: Tried>() {
    let eight = request_as(Coding::Eight, &[bytes("CC 00 07 41 05 41 42 00")]);
    let mut unicode = request(&[status(Add, &[(40, 9)])]);
    unicode[5] |= 0xF0;
    assert_eq!(both_orders(&Pair::<K>::fresh(), &eight, &unicode), [TAKEN; 2]);
}

/// Rule D13: a delete of quick text 0 frees the room for status text 126.
fn the_order_matters_in_a_full_area<K: Tried>() {
    let pair = full::<K>();
    assert_eq!(pair.set.tables.text_bytes(), 4_096);
    let delete = bytes("02 02 00 0B 08 07 08 01 CC 00 06 81 00 00 00");
    assert_eq!(delete, request(&[quick(Delete, &[(0, 0)])]));
    let add = request(&[status(Add, &[(126, 16)])]);
    let (told, left) = in_turn(&pair, &delete, &add);
    assert_eq!(told, TAKEN);
    let (told, mut turned) = in_turn(&pair, &add, &delete);
    assert_eq!(told, [no_room::<K>(1), (0, 0)]);
    assert_eq!(left.bytes == turned.bytes, K::TEXT_BYTES.is_none());
    // Sent again it finds the room, and then the order is forgotten.
    assert_eq!(turned.told(&add), (0, 0));
    assert!(left.bytes == turned.bytes);
}

/// How often what is promised was met.
#[derive(Debug, Default)]
struct Met {
    /// Both orders taken.
    same_store: usize,
    /// A hash was kept before.
    forgotten: usize,
    /// Taken after the other exactly as before it, where that is promised: taken, and refused.
    promised: [usize; 2],
    /// Refused after a request that was taken, or only before it.
    order_matters: usize,
}

impl Met {
    fn note(&mut self, told: [Turns; 2], kept: bool, is_promised: bool) {
        if told == [TAKEN; 2] {
            self.same_store += 1;
            self.forgotten += usize::from(kept);
        }
        for [before, after] in told {
            assert!([before, after].iter().all(|said| said.0 == 0 || said.0 == 2), "{told:?}");
            if is_promised {
                self.promised[usize::from(before.0 == 2)] += 1;
            }
            self.order_matters += usize::from(before.0 != after.0);
        }
    }
}

/// That no type stands in both of them, and an FF in neither.
fn share_no_table(one: &[u8], other: &[u8]) {
    let [types, others] = [one, other].map(|message| {
        let coding = Coding::from_number(message[5] & 15).expect("one of the two");
        let types = types_of(message, coding);
        assert_eq!(types.len(), usize::from(message[7]), "{message:02X?}");
        types.into_iter().collect::<BTreeSet<_>>()
    });
    assert!(types.is_disjoint(&others), "{types:02X?} {others:02X?}");
    assert!(types.union(&others).all(|kind| TYPES.contains(kind)));
}

/// Whatever a set holds. Where texts bind neither, the failed ID is the same too, before and after.
fn any_two_that_share_no_table<K: Tried>() {
    let mut met = Met::default();
    many_sets::<K>(K::seeds(10_000, 60), |random, pair| {
        for _ in 0..4 {
            let drafts = apart::pair(random, &pair.set);
            let is_promised = K::TEXT_BYTES.is_none() || drafts.iter().any(is_textless);
            let [one, other] = drafts.map(|draft| draft.bytes());
            share_no_table(&one, &other);
            let told = both_orders(pair, &one, &other);
            if is_promised {
                let stays = told.iter().all(|[before, after]| before == after);
                assert!(stays, "{told:?}: {one:02X?} {other:02X?}");
            }
            met.note(told, pair.bytes[0] != 0, is_promised);
        }
    });
    println!("{met:?}");
    assert!(met.same_store > 900 / K::SHARE && met.forgotten > 120 / K::SHARE);
    assert!(met.promised[0] > 1_500 / K::SHARE && met.promised[1] > 300 / K::SHARE);
    assert_eq!(met.order_matters > 50, K::TEXT_BYTES.is_some());
}

/// Two adds of channels: both orders are taken and leave two stores. So what is compared above can differ.
fn what_shares_a_table_is_another_matter<K: Tried>() {
    let [one, other] = [241, 640].map(|channel| request(&[channels(Add, &[channel])]));
    let pair = Pair::<K>::fresh();
    let ((told, left), (again, turned)) =
        (in_turn(&pair, &one, &other), in_turn(&pair, &other, &one));
    assert_eq!([told, again], [TAKEN; 2]);
    assert!(left.bytes != turned.bytes);
}
