//! Judging by itself, and what was judged committed later: by hand, and the archive behind the face against the reference.

use otap::{Outcome, Refusal, Set, Table, REPLY_ROOM, SCRATCH_ROOM};
use otap_reference::inputs::random::Random;
use otap_reference::inputs::Inputs;
use otap_reference::reference::message::{query, Hash};
use otap_reference::reference::settings::Operation::{Add, Delete, Replace};
use otap_tests::for_both_sets;
use otap_tests::pair::{patterned, Pair};
use otap_tests::sets::Tried;
use otap_tests::{
    bytes, channels, group_contacts, hex_request, individual_contacts, lines_add, request,
};

for_both_sets!(
    one_hash_in_both_replies,
    a_restart_is_foreseen,
    another_request_comes_between,
    room_is_made_between,
    a_short_reply_buffer,
    queries,
    refused_messages,
    refused_without_a_reply,
    a_row_is_held_meanwhile,
    any_reply_buffer,
    messages_that_wait,
);

/// Home numbers NZI 15, NP 806; with NP 807 they are at fault.
const HOME: &str = "CD 00 05 07 E4 C0";
const NP_807: &str = "CD 00 05 07 E4 E0";
const SHORT_HASH: &str = "FF 00 07 C1 12 34 56 78";
const LONG_HASH: &str = "FF 00 0D 42 01 02 03 04 05 06 07 08 09 0A";

/// Judges with a buffer that no reply fills.
fn judged<K: Tried>(pair: &mut Pair<K>, message: &[u8]) -> Vec<u8> {
    let number = pair.judge_into(message, REPLY_ROOM + 5);
    let (answer, reply) = pair.judge_over(message, &patterned(REPLY_ROOM));
    assert_eq!(answer.number, number, "one answer whatever the room");
    reply
}

/// A store with a hash kept.
fn kept<K: Tried>(hash: &str) -> Pair<K> {
    let mut pair = Pair::<K>::fresh();
    assert_eq!(pair.commit(&hex_request(&[hash])), 0);
    pair
}

/// The request's own hash stands in both replies, and not the one kept before; judging twice says the same.
fn one_hash_in_both_replies<K: Tried>() {
    for (own, value) in [
        (SHORT_HASH, "01 12 34 56 78"),
        (LONG_HASH, "02 01 02 03 04 05 06 07 08 09 0A"),
        ("FF 00 03 40", "00"),
        (HOME, "00"),
    ] {
        for mut pair in [Pair::<K>::fresh(), kept::<K>(SHORT_HASH), kept::<K>(LONG_HASH)] {
            let message = hex_request(&[HOME, own]);
            let reply = judged(&mut pair, &message);
            assert_eq!(reply[6..9], [9, 0, 0], "{own}");
            assert_eq!(reply[9..], bytes(value), "{own}");
            assert_eq!(judged(&mut pair, &message), reply);
            let mut buffer = [0; REPLY_ROOM];
            let mut store = pair.store();
            assert_eq!(store.commit(&message, &mut buffer).reply, reply);
        }
    }
}

/// Send and reboot are those of committing; the store keeps nothing yet.
fn a_restart_is_foreseen<K: Tried>() {
    let mut pair = Pair::<K>::fresh();
    let fresh = pair.bytes.clone();
    for (head, send, reboot) in [("00", false, false), ("40", true, false), ("80", false, true)] {
        let message = hex_request(&[HOME, &format!("FF 00 03 {head}")]);
        let mut reply = [0; REPLY_ROOM];
        let answer = pair.store().judge(&message, &mut reply);
        assert_eq!((answer.outcome, answer.failed_id), (Outcome::Taken, 0));
        assert_eq!((answer.send, answer.reboot), (send, reboot));
        assert_eq!(answer.reply, bytes("02 02 00 06 08 00 09 00 00 00"));
    }
    assert!(pair.bytes == fresh);
}

/// Each list has one place left. What was judged good has none when another request took it, and nothing of it is applied.
fn another_request_comes_between<K: Tried>() {
    let (all_but_one, last) = (vec![241; K::MOST_CHANNELS - 1], K::MOST_LINES - 1);
    let digits = |key: u8| vec![key / 100, key / 10 % 10, key % 10];
    let keys: Vec<Vec<u8>> = (0..=K::MOST_LINES as u8).map(digits).collect();
    let keys: Vec<&[u8]> = keys.iter().map(Vec::as_slice).collect();
    let addresses: Vec<(u32, &str)> = (0..65).map(|place| (0x10_0001 + place, "")).collect();
    let members = |places: &[(u32, &'static str)]| group_contacts(Add, 3, places);
    let people = |places: &[(u32, &'static str)]| individual_contacts(Add, places);
    let cases = [
        (channels(Replace, &all_but_one), channels(Add, &[640]), channels(Add, &[640])),
        (lines_add(&keys[..last]), lines_add(&keys[last..=last]), lines_add(&keys[last + 1..])),
        (members(&addresses[..63]), members(&addresses[63..64]), members(&addresses[64..])),
        (people(&addresses[..63]), people(&addresses[63..64]), people(&addresses[64..])),
    ];
    for (most, other, setting) in cases {
        let mut pair = Pair::<K>::fresh();
        assert_eq!(pair.commit(&request(&[most])), 0);
        let message = request(&[bytes(HOME), setting, bytes(SHORT_HASH)]);
        assert_eq!(judged(&mut pair, &message)[7..], [0, 0, 1, 0x12, 0x34, 0x56, 0x78]);
        let untouched = pair.bytes.clone();
        assert_eq!(pair.commit(&request(&[other])), 0);
        let full = pair.bytes.clone();
        assert_eq!(pair.told(&message), (2, 2));
        assert!(pair.bytes == full, "a refused request changes nothing");
        // The same store again is the one that it was judged for.
        assert_eq!(
            Set::<K>::lent(&mut untouched.clone()).commit(&message, &mut [0; 20]).number(),
            0
        );
    }
}

/// What had no room when it was judged has some when it is committed.
fn room_is_made_between<K: Tried>() {
    let mut pair = Pair::<K>::fresh();
    assert_eq!(pair.commit(&request(&[channels(Replace, &vec![241; K::MOST_CHANNELS])])), 0);
    let message = request(&[channels(Add, &[640])]);
    assert_eq!(judged(&mut pair, &message)[7..], [2, 1, 0]);
    assert_eq!(pair.commit(&request(&[channels(Delete, &[241])])), 0);
    assert_eq!(pair.commit(&message), 0);
    assert_eq!(pair.set.tables.channels, [640]);
}

/// A reply buffer of 19 bytes comes before everything else, and keeps its bytes.
fn a_short_reply_buffer<K: Tried>() {
    let mut pair = Pair::<K>::fresh();
    let good = hex_request(&[HOME, LONG_HASH]);
    for message in [&good[..], &good[..3]] {
        for room in [0, 1, REPLY_ROOM - 1] {
            assert_eq!(pair.judge_into(message, room), 10);
        }
    }
    assert_eq!(pair.judge_into(&good, REPLY_ROOM), 0);
    pair.bytes.pop();
    assert_eq!(pair.judge_into(&good, REPLY_ROOM - 1), 10);
    assert_eq!(pair.judge_into(&good, REPLY_ROOM), 11);
}

/// A query is answered as committing answers it: with the hash kept, whether it matches or not.
fn queries<K: Tried>() {
    let mut pair = kept::<K>(LONG_HASH);
    let hash = bytes("02 01 02 03 04 05 06 07 08 09 0A");
    let matching = query(&Hash::Stamped([1, 2, 3, 4, 5, 6, 7, 8, 9, 10]));
    for (message, number) in [(matching, 0), (query(&Hash::Crc([1, 2, 3, 4])), 5)] {
        let reply = judged(&mut pair, &message);
        assert_eq!((reply[7], &reply[9..]), (number, &hash[..]));
        let mut buffer = [0; REPLY_ROOM];
        let answer = pair.store().judge(&message, &mut buffer);
        assert!(answer.send && !answer.reboot);
        assert_eq!(pair.commit(&message), number);
    }
    assert_eq!(judged(&mut pair, &bytes("02 02 00 00 08 00 0D 03"))[7..], [4, 0, 0]);
}

/// Refusals with a reply carry no hash, whichever is kept, and name the setting at fault.
fn refused_messages<K: Tried>() {
    let mut pair = kept::<K>(SHORT_HASH);
    let before = pair.bytes.clone();
    let too_many = request(&[bytes(HOME), channels(Replace, &vec![300; K::MOST_CHANNELS + 1])]);
    let mut version = hex_request(&[HOME]);
    version[6] = 0x10;
    let mut coding = hex_request(&[HOME]);
    coding[5] = 5;
    for (message, number, failed) in [
        (version, 1, 0),
        (too_many, 2, 2),
        (hex_request(&["D4 00 05 00 00 00"]), 3, 1),
        (hex_request(&[HOME, HOME, NP_807]), 4, 3),
        (coding, 4, 0),
    ] {
        assert_eq!(judged(&mut pair, &message)[7..], [number, failed, 0]);
        let mut buffer = [0; REPLY_ROOM];
        let answer = pair.store().judge(&message, &mut buffer);
        assert!(answer.send && !answer.reboot);
    }
    assert!(pair.bytes == before);
}

/// Refusals without a reply, in their order.
fn refused_without_a_reply<K: Tried>() {
    let mut pair = Pair::<K>::fresh();
    let good = hex_request(&[HOME]);
    let outcome = |pair: &mut Pair<K>, message: &[u8]| {
        assert!(judged(pair, message).is_empty());
        pair.store().judge(message, &mut [0; REPLY_ROOM]).outcome
    };
    let refused = Outcome::Refused;
    assert_eq!(outcome(&mut pair, &good[..6]), refused(Refusal::MessageLength));
    assert_eq!(
        outcome(&mut pair, &vec![0; K::LONGEST_MESSAGE + 1]),
        refused(Refusal::MessageLength)
    );
    assert_eq!(outcome(&mut pair, &good[..7]), refused(Refusal::WrongCarrier));
    assert_eq!(
        outcome(&mut pair, &bytes("02 02 00 00 08 07 11")),
        refused(Refusal::WrongMessageType)
    );
    pair.bytes.truncate(K::STORE_SIZE - 1);
    assert_eq!(outcome(&mut pair, &good[..6]), refused(Refusal::NotAStore));
}

/// Judging only reads, so that a row may be held meanwhile.
fn a_row_is_held_meanwhile<K: Tried>() {
    let mut pair = Pair::<K>::fresh();
    assert_eq!(pair.commit(&hex_request(&["D1 00 0B 60 00 10 00 01 00 41 00 00"])), 0);
    let store = pair.store();
    let (mut scratch, mut reply) = ([0; SCRATCH_ROOM], [0; REPLY_ROOM]);
    let row = store.row(Table::Groups, 0, &mut scratch).expect("the row is there");
    let renaming = hex_request(&["D1 00 0B 60 00 10 00 01 00 42 00 00"]);
    assert_eq!(store.judge(&renaming, &mut reply).outcome, Outcome::Taken);
    assert_eq!(row.bytes(), [0, b'A']);
}

/// Whatever the reply buffers hold, and however long they are from 20 bytes on: one answer and one reply.
fn any_reply_buffer<K: Tried>() {
    let mut random = Random::new(60);
    for seed in 8_000..8_030 {
        let mut inputs = Inputs::new(seed, K::LIMITS);
        let mut pair = Pair::<K>::fresh();
        for _ in 0..50 {
            let message = inputs.message();
            let mut held = || [random.bytes_up_to(40), vec![0xEE; REPLY_ROOM]].concat();
            let judged = pair.judge_over(&message, &held());
            assert_eq!(pair.judge_over(&message, &held()), judged, "{message:02X?}");
            let mut buffer = held();
            let answer =
                Set::<K>::lent(&mut pair.bytes.clone()).commit(&message, &mut buffer).number();
            assert_eq!(answer, judged.0.number, "{message:02X?}");
            assert_eq!(buffer[..judged.1.len()], judged.1, "{message:02X?}");
            assert_eq!(pair.commit(&message), answer);
        }
    }
}

/// Messages that are judged, and committed only after others, at times the last first: each commit goes by the store that it then finds.
fn messages_that_wait<K: Tried>() {
    let (mut stood, mut refused, mut made) = (0, 0, 0);
    for seed in 8_100..8_160 {
        let mut inputs = Inputs::new(seed, K::LIMITS);
        let mut pair = Pair::<K>::fresh();
        for round in 0..30 {
            let mut waiting: Vec<Vec<u8>> = (0..4).map(|_| inputs.message()).collect();
            if round % 2 == 1 {
                waiting.reverse();
            }
            let judged: Vec<u8> = waiting.iter().map(|message| pair.judge(message)).collect();
            let same = pair.bytes.clone();
            for (message, judged) in waiting.iter().zip(judged) {
                if pair.bytes == same {
                    assert_eq!(pair.commit(message), judged, "the store is the same");
                    continue;
                }
                let committed = pair.commit(message);
                stood += usize::from(judged == 0 && committed == 0);
                refused += usize::from(judged == 0 && committed != 0);
                made += usize::from(judged != 0 && committed == 0);
            }
        }
    }
    println!("after others: {stood} taken as judged, {refused} no more, {made} only then");
    assert!(stood > 500 && refused > 30 && made > 30, "{stood}, {refused}, {made}");
}
