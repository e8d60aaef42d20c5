//! Request A6 by hand: what is judged, and what then is committed.

use super::*;
use crate::inputs::Inputs;
use crate::reference::by_hand::{bytes, number_of, request_of as of};
use crate::reference::limits::HANDHELD;
use crate::reference::message::query;

/// Asks for a restart and a reply, and leaves a hash of code 1.
const LAST: &str = "FF 00 07 C1 12 34 56 78";
const HASH: Hash = Hash::Crc([0x12, 0x34, 0x56, 0x78]);
/// Home numbers NZI 15, NP 806, and NP 807, which is one too many.
const HOME: &str = "CD 00 05 07 E4 C0";
const NP_807: &str = "CD 00 05 07 E4 E0";
/// Adds channel 241.
const ONE_CHANNEL: &str = "CE 00 06 40 01 0F 1F";

/// What judging answers, and the whole buffer after it, which held EE.
fn judged(message: &[u8], set: &Set) -> (Answer, [u8; REPLY_ROOM]) {
    let mut reply = [0xEE; REPLY_ROOM];
    (judge(message, set, &mut reply), reply)
}

fn committed(message: &[u8], set: &mut Set) -> (Answer, [u8; REPLY_ROOM]) {
    let mut reply = [0xEE; REPLY_ROOM];
    (commit(message, set, &mut reply), reply)
}

/// A set that holds as many channels.
fn with_channels(count: usize) -> Set {
    let mut set = Set::fresh(HANDHELD);
    set.tables.channels = vec![241; count];
    set
}

/// The reply to a good request carries its own hash before the set keeps it; send and reboot are those of committing.
#[test]
fn a_good_request() {
    let mut set = Set::fresh(HANDHELD);
    let message = of(&[HOME, LAST]);
    let said = judged(&message, &set);
    let answer = Answer { number: TAKEN, failed: 0, send: true, reboot: true, length: 14 };
    assert_eq!(said.0, answer);
    assert_eq!(said.1[..14], bytes("02 02 00 0A 08 00 09 00 00 01 12 34 56 78"));
    assert_eq!(said.1[14..], [0xEE; 6]);
    assert_eq!(set, Set::fresh(HANDHELD));
    assert_eq!(committed(&message, &mut set), said);
    assert_eq!((set.tables.home.np, &set.hash), (806, &HASH));
}

#[test]
fn another_request_comes_between() {
    let mut set = with_channels(63);
    let message = of(&[HOME, ONE_CHANNEL]);
    assert_eq!(judged(&message, &set).0.number, TAKEN);
    assert_eq!(number_of(&mut set, &[ONE_CHANNEL]), (TAKEN, 0));
    let before = set.clone();
    let (answer, reply) = committed(&message, &mut set);
    assert_eq!((answer.number, answer.failed), (NO_ROOM, 2));
    assert_eq!(reply[..10], bytes("02 02 00 06 08 00 09 02 02 00"));
    assert_eq!(set, before);
}

/// The other way round: what was judged without room has some when it is committed.
#[test]
fn room_is_made_between() {
    let mut set = with_channels(64);
    let message = of(&[ONE_CHANNEL]);
    assert_eq!(judged(&message, &set).0.number, NO_ROOM);
    assert_eq!(number_of(&mut set, &["CE 00 04 C0 00"]), (TAKEN, 0));
    assert_eq!(committed(&message, &mut set).0.number, TAKEN);
}

#[test]
fn a_refused_request() {
    let set = with_channels(1);
    let (answer, reply) = judged(&of(&[HOME, NP_807]), &set);
    assert_eq!(
        answer,
        Answer { number: BAD_FIELD, failed: 2, send: true, reboot: false, length: 10 }
    );
    assert_eq!(reply[..10], bytes("02 02 00 06 08 00 09 04 02 00"));
    assert_eq!(set, with_channels(1));
}

/// Queries are judged too; the one that matches is answered with the hash kept.
#[test]
fn queries() {
    let mut set = Set::fresh(HANDHELD);
    assert_eq!(judged(&query(&HASH), &set).0.number, NO_MATCH);
    assert_eq!(number_of(&mut set, &[LAST]), (TAKEN, 0));
    let said = judged(&query(&HASH), &set);
    assert_eq!(said.0, Answer { number: TAKEN, failed: 0, send: true, reboot: false, length: 14 });
    assert_eq!(said.1[9..14], [1, 0x12, 0x34, 0x56, 0x78]);
    assert_eq!(committed(&query(&HASH), &mut set), said);
    assert_eq!(judged(&query(&Hash::Nothing), &set).0.number, NO_MATCH);
}

/// 10 to 14 in their order, and none writes.
#[test]
fn refusals_without_a_reply() {
    let set = Set::fresh(HANDHELD);
    let good = of(&[HOME]);
    let number = |message: &[u8], is_store, room| {
        let mut reply = vec![0xEE; room];
        let answer = judge_from(message, is_store, &set, &mut reply);
        assert!(reply.iter().all(|&byte| byte == 0xEE));
        assert_eq!(answer, Answer { number: answer.number, ..Answer::default() });
        answer.number
    };
    assert_eq!(number(&[], false, REPLY_ROOM - 1), REPLY_SHORT);
    assert_eq!(number(&good, true, REPLY_ROOM - 1), REPLY_SHORT);
    assert_eq!(number(&[], false, REPLY_ROOM), NOT_A_STORE);
    assert_eq!(number(&good[..6], true, REPLY_ROOM), MESSAGE_LENGTH);
    assert_eq!(number(&good[..7], true, REPLY_ROOM), WRONG_CARRIER);
    assert_eq!(number(&bytes("02 02 00 00 08 07 11"), true, REPLY_ROOM), WRONG_MESSAGE_TYPE);
}

/// Whatever the reply buffers hold, and whatever message comes: one answer, one reply, and only committing changes the set.
#[test]
fn judged_and_committed() {
    for seed in 0..20 {
        let mut inputs = Inputs::new(seed, HANDHELD);
        let mut set = Set::fresh(HANDHELD);
        for _ in 0..60 {
            let message = inputs.message();
            let before = set.clone();
            let (mut forecast, mut reply) = ([seed as u8; 30], [!seed as u8; REPLY_ROOM]);
            let judged = judge(&message, &set, &mut forecast);
            assert_eq!(set, before, "{message:02X?}");
            assert_eq!(commit(&message, &mut set, &mut reply), judged, "{message:02X?}");
            assert_eq!(forecast[..judged.length], reply[..judged.length], "{message:02X?}");
            assert!(judged.number == TAKEN || set == before, "{message:02X?}");
        }
    }
}
