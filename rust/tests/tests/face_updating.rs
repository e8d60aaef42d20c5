//! Which messages are an update between two stores: by hand, refused, cut and changed anywhere, and between neighbours, by the archive and by the reference.

use otap::Refusal;
use otap_reference::inputs::updating::{neighbour, update};
use otap_reference::layout;
use otap_reference::reference::message::{query, request_as};
use otap_reference::reference::settings::Operation::{Add, Delete, Replace};
use otap_reference::reference::tables::Set;
use otap_reference::reference::texts::Coding;
use otap_tests::for_both_sets;
use otap_tests::pair::Pair;
use otap_tests::sets::Tried;
use otap_tests::texts::{full, many_sets, quick, status};
use otap_tests::updating::{checked, Lent};
use otap_tests::{bytes, channels, hex_request, request};
use std::collections::BTreeMap;

for_both_sets!(
    by_hand,
    hashes_are_aside,
    nearly_the_tables,
    what_is_refused_is_none,
    a_result_query_is_none,
    replaces_of_none,
    room_on_the_way,
    as_long_as_a_message,
    bytes_of_no_store,
    cut_and_changed_anywhere,
    between_neighbours,
);

/// Adds PABX 2345 with the text A; PSTN 7 and PSTN 8 without one.
const LINE: &str = "CA 00 0B 42 01 23 45 FF 00 41 00 00";
const ANOTHER: &str = "CA 00 07 40 01 7F 00 00";
const THIRD: &str = "CA 00 07 40 01 8F 00 00";
const HASHES: [&str; 2] = ["FF 00 07 01 01 02 03 04", "FF 00 0D C2 01 02 03 04 05 06 07 08 09 0A"];

/// A set after a request with these settings, which it takes.
fn holding<K: Tried>(settings: &[&str]) -> Lent {
    let mut pair = Pair::<K>::fresh();
    assert_eq!(pair.told(&hex_request(settings)), (0, 0));
    Lent::of(&pair.set)
}

fn fresh<K: Tried>() -> Lent {
    Lent::of(&Set::fresh(K::LIMITS))
}

/// What the check says of a request with these settings.
fn says<K: Tried>(first: &Lent, second: &Lent, settings: &[&str]) -> bool {
    checked::<K>(first, second, &hex_request(settings)).expect("both are stores")
}

fn by_hand<K: Tried>() {
    let (first, second) = (holding::<K>(&[LINE]), holding::<K>(&[LINE, ANOTHER]));
    let message = hex_request(&[ANOTHER]);
    assert_eq!(K::updates(&first.bytes, &second.bytes, &message), Ok(true));
    assert_eq!(K::otap_check_update(&first.bytes, &second.bytes, &message), 0x100);
    assert_eq!(K::otap_check_update(&second.bytes, &first.bytes, &message), 0);
    assert_eq!(K::otap_check_update(&[], &second.bytes, &message), 11);
    assert_eq!(K::otap_check_update(&first.bytes, &[], &message), 11);
    assert!(says::<K>(&first, &second, &[ANOTHER]));
    assert!(says::<K>(&second, &first, &["CA 00 07 80 01 7F 00 00"]));
    let narrow = request_as(Coding::Eight, &[bytes("CA 00 06 40 01 7F 00")]);
    assert_eq!(checked::<K>(&first, &second, &narrow), Ok(true));
    let mut open = message;
    (open[2], open[3], open[5]) = (0, 0, 0xF7);
    assert_eq!(checked::<K>(&first, &second, &open), Ok(true));
}

fn hashes_are_aside<K: Tried>() {
    for kept in HASHES {
        let first = holding::<K>(&[LINE, kept]);
        for wanted in HASHES {
            let second = holding::<K>(&[LINE, ANOTHER, wanted]);
            assert!(says::<K>(&first, &second, &[ANOTHER]));
            assert!(HASHES.iter().all(|sent| says::<K>(&first, &second, &[ANOTHER, sent])));
            assert!(!says::<K>(&first, &second, &[wanted]));
        }
    }
}

fn nearly_the_tables<K: Tried>() {
    let (first, second) = (holding::<K>(&[LINE]), holding::<K>(&[LINE, ANOTHER]));
    for settings in [
        // One entry more than wanted and one fewer; in the other order, with another flag, of the other IDtype, with a text; another table besides.
        &[ANOTHER, THIRD][..],
        &[LINE],
        &["CA 00 04 C0 00", ANOTHER, LINE],
        &["CA 00 07 60 01 7F 00 00"],
        &["CA 00 07 42 01 7F 00 00"],
        &["CA 00 09 40 01 7F 00 41 00 00"],
        &[ANOTHER, "CD 00 05 07 E4 C0"],
        &[ANOTHER, "CE 00 06 40 01 0F 1F"],
    ] {
        assert!(!says::<K>(&first, &second, settings), "{settings:?}");
    }
}

/// With whatever number, though what is good in it would do, and also between equal stores.
fn what_is_refused_is_none<K: Tried>() {
    let (first, second) = (holding::<K>(&[LINE]), holding::<K>(&[LINE, ANOTHER]));
    let no_room = channels(Replace, &vec![241; K::MOST_CHANNELS + 1]);
    for wrong in ["CD 00 05 07 E4 E0", "C7", "CA 00 07 40 01 7E 00 00"] {
        assert!(!says::<K>(&first, &second, &[ANOTHER, wrong]), "{wrong}");
        assert!(!says::<K>(&second, &second, &[wrong]), "{wrong}");
    }
    let message = request(&[bytes(ANOTHER), no_room, channels(Replace, &[])]);
    assert_eq!(checked::<K>(&first, &second, &message), Ok(false));
    assert_eq!(checked::<K>(&second, &second, &message), Ok(false));
    assert_eq!(checked::<K>(&second, &second, &[]), Ok(false));
}

/// Though it is answered 0, and changes nothing.
fn a_result_query_is_none<K: Tried>() {
    let kept = holding::<K>(&[LINE, HASHES[0]]);
    let set = kept.set.as_ref().expect("a store");
    let asked = query(&set.hash);
    assert_eq!(Pair::<K>::of(kept.bytes.clone(), set.clone()).told(&asked), (0, 0));
    assert_eq!(checked::<K>(&kept, &kept, &asked), Ok(false));
    assert_eq!(checked::<K>(&fresh::<K>(), &fresh::<K>(), &asked), Ok(false));
}

fn replaces_of_none<K: Tried>() {
    let (none, held) = (fresh::<K>(), holding::<K>(&[LINE]));
    for replace in ["C8 00 05 D0 00 00", "C9 00 04 C0 00", "CC 00 03 C0", "D0 00 04 C0 00"] {
        assert!(says::<K>(&none, &none, &[replace]), "{replace}");
        assert!(says::<K>(&held, &held, &[replace]), "{replace}");
    }
    let lines = "CA 00 04 C0 00";
    assert!(says::<K>(&none, &none, &[lines]) && says::<K>(&held, &none, &[lines]));
    assert!(!says::<K>(&held, &held, &[lines]));
}

/// In a full area a delete has to come first, though the end would fit either way.
fn room_on_the_way<K: Tried>() {
    let pair = full::<K>();
    let (delete, add) = (quick(Delete, &[(0, 0)]), status(Add, &[(126, 16)]));
    let mut second = pair.clone();
    assert_eq!(second.told(&request(&[delete.clone(), add.clone()])), (0, 0));
    let [first, second] = [&pair, &second].map(|pair| Lent::of(&pair.set));
    let message = request(&[delete.clone(), add.clone()]);
    assert_eq!(checked::<K>(&first, &second, &message), Ok(true));
    let message = request(&[add, delete]);
    assert_eq!(checked::<K>(&first, &second, &message), Ok(K::TEXT_BYTES.is_none()));
}

/// A request of so many bytes that adds channel 241 and nothing else: before that it deletes channels that are not there, leaves the key and adds no contacts.
fn of_size(size: usize) -> Vec<u8> {
    let deletes = vec![channels(Delete, &[640; 500]); (size - 100) / 755];
    let add = channels(Add, &[241]);
    let left = size - 8 - deletes.concat().len() - add.len();
    // Four bytes each, and five.
    let (key, contacts) = (bytes("CB 00 03 80"), bytes("C9 00 04 40 00"));
    let filling = [vec![key; left / 4 - left % 4], vec![contacts; left % 4]].concat();
    let message = request(&[deletes, filling, vec![add]].concat());
    assert_eq!(message.len(), size);
    message
}

/// One byte more is too long, and no refusal.
fn as_long_as_a_message<K: Tried>() {
    let second = holding::<K>(&["CE 00 06 40 01 0F 1F"]);
    for (size, wanted) in [(K::LONGEST_MESSAGE, true), (K::LONGEST_MESSAGE + 1, false)] {
        assert_eq!(checked::<K>(&fresh::<K>(), &second, &of_size(size)), Ok(wanted), "{size}");
    }
}

/// The message is not asked then.
fn bytes_of_no_store<K: Tried>() {
    let good = holding::<K>(&[LINE]);
    let mut poked = good.bytes.clone();
    poked[21] ^= 0xFF;
    assert!(!layout::is_store(&poked, K::LIMITS));
    let sizes = [0, 1, 11, K::STORE_SIZE - 1, K::STORE_SIZE + 1, 24_576, 49_152];
    let zeros = sizes.map(|size| vec![0; size]);
    let longer = [&good.bytes[..], &[0]].concat();
    for none in zeros.into_iter().chain([poked, longer]).map(Lent::no_store) {
        for message in [hex_request(&[ANOTHER]), hex_request(&["C7"]), Vec::new()] {
            assert_eq!(checked::<K>(&none, &good, &message), Err(11));
            assert_eq!(checked::<K>(&good, &none, &message), Err(11));
            assert_eq!(checked::<K>(&none, &none, &message), Err(11));
            assert_eq!(K::updates(&good.bytes, &none.bytes, &message), Err(Refusal::NotAStore));
        }
    }
}

/// Every cut of an update, and every byte of it changed to every other.
fn cut_and_changed_anywhere<K: Tried>() {
    let (first, second) = (holding::<K>(&[ANOTHER, HASHES[0]]), holding::<K>(&[ANOTHER, LINE]));
    let message = hex_request(&[LINE]);
    let mut met = BTreeMap::<bool, usize>::new();
    for cut in 0..message.len() {
        assert_eq!(checked::<K>(&first, &second, &message[..cut]), Ok(false), "{cut}");
    }
    for (place, byte) in (0..message.len()).flat_map(|at| (0..=255).map(move |byte| (at, byte))) {
        let mut changed = message.clone();
        changed[place] = byte;
        let said = checked::<K>(&first, &second, &changed).expect("both are stores");
        *met.entry(said).or_default() += 1;
    }
    println!("{met:?}");
    // Every byte once as it is; and the reserved bits.
    assert!(met[&true] > message.len() && met[&false] > 1_000);
}

fn between_neighbours<K: Tried>() {
    let mut met = BTreeMap::<bool, usize>::new();
    many_sets::<K>(K::seeds(10_200, 40), |random, pair| {
        for _ in 0..4 {
            let other = neighbour(random, &pair.set);
            let message = update(random, &pair.set, &other);
            let said = checked::<K>(&Lent::of(&pair.set), &Lent::of(&other), &message);
            *met.entry(said.expect("both are stores")).or_default() += 1;
        }
    });
    println!("{met:?}");
    assert!(met.values().all(|&count| count > 300 / K::SHARE) && met.len() == 2);
}
