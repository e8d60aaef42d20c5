//! Reports of several messages, and that reading all of them gives back what was asked for.

use super::*;
use crate::inputs::Inputs;
use crate::reference::commit::{judge_and_commit, REPLY_ROOM};
use crate::reference::limits::{Limits, HANDHELD, VEHICLE};
use crate::reference::message::Hash;
use crate::reference::queries::query;
use crate::reference::report_reading::read;
use crate::reference::tables::STATUS_TEXTS;

/// Of a report that has at most 255.
fn all(types: &[u8], set: &Set) -> Vec<Vec<u8>> {
    messages(types, set).expect("at most 255 messages")
}

/// How many parameters each message has.
fn counts(messages: &[Vec<u8>]) -> Vec<u8> {
    messages.iter().map(|message| message[9]).collect()
}

/// Every message is read, with its total and index, and all of them give these entries; none had room for one of the next.
fn assert_read_back(types: &[u8], set: &Set) -> usize {
    let messages = all(types, set);
    let mut items = Vec::new();
    let mut room: Option<usize> = None;
    for (index, message) in (1..).zip(&messages) {
        let report =
            read(message, set.limits).unwrap_or_else(|number| panic!("{number}: {message:02X?}"));
        assert_eq!((usize::from(report.total), report.index), (messages.len(), index));
        let first = report.entries.first().map_or(0, |entry| entry.places.behind - REPORT_HEAD);
        assert!(room.is_none_or(|room| first > room), "{types:02X?}");
        let left = set.limits.message - message.len();
        room = Some(if report.entries.len() == 255 { 0 } else { left });
        items.extend(report.items());
    }
    assert!(items == asked(types, set), "{types:02X?}");
    messages.len()
}

fn status_texts() -> Set {
    let mut set = Set::fresh(HANDHELD);
    set.tables.status_texts = vec![Some(vec![0x4E2D; 16]); STATUS_TEXTS];
    set
}

#[test]
fn channels_by_count() {
    let mut set = Set::fresh(HANDHELD);
    set.tables.channels = (241..).take(HANDHELD.channels).collect();
    assert_eq!(counts(&all(&[0xCE; 3], &set)), [192]);
    let messages = all(&[0xCE; 4], &set);
    assert_eq!(counts(&messages), [255, 1]);
    assert_eq!(messages.iter().map(Vec::len).collect::<Vec<_>>(), [1_285, 15]);
    assert_eq!(messages[1], [2, 2, 0, 11, 8, 7, 11, 2, 2, 1, 0x8E, 0, 0x13, 0, 0x3F]);
    assert_read_back(&[0xCE; 4], &set);
    // 255 exactly are one message.
    set.tables.channels.truncate(63);
    assert_eq!(counts(&all(&[0xCE, 0xCE, 0xCE, 0xCE, 0xCD, 0xCF, 0xCB], &set)), [255]);
    assert_eq!(counts(&all(&[0xCE, 0xCE, 0xCE, 0xCE, 0xCD, 0xCF, 0xCB, 0], &set)), [255, 1]);
}

#[test]
fn status_texts_by_bytes() {
    let set = status_texts();
    let messages = all(&[0xD0; 2], &set);
    assert_eq!(counts(&messages), [107, 85]);
    assert_eq!(messages.iter().map(Vec::len).collect::<Vec<_>>(), [4_076, 3_240]);
    assert_read_back(&[0xD0; 2], &set);
}

/// What still fits goes in, up to byte 4,096, and what passes it by a byte does not.
#[test]
fn to_the_last_byte() {
    let mut set = status_texts();
    set.hash = Hash::Stamped([7; 10]);
    set.tables.status_texts.truncate(95);
    let types = [0xD0, 0xFF, 0xCC];
    // Behind 95 texts and the hash 463 bytes are left, of which nine quick texts take 51 each.
    set.tables.quick_texts = vec![None; 64];
    set.tables.quick_texts[..9].fill(Some(vec![0x41; 23]));
    let last = all(&types, &set);
    assert_eq!((counts(&last), last[0].len()), (vec![105], 4_092));
    set.tables.quick_texts[9] = Some(vec![0x41]);
    assert_eq!(counts(&all(&types, &set)), [105, 1]);
    // An error has two bytes, the key six.
    set.tables.quick_texts[9] = None;
    assert_eq!(all(&[0xD0, 0xFF, 0xCC, 0], &set)[0].len(), 4_094);
    assert_eq!(counts(&all(&[0xD0, 0xFF, 0xCC, 0xCB], &set)), [105, 1]);
    // 4,096 to the byte: one text is a unit shorter, and the key follows.
    set.tables.status_texts[0] = Some(vec![0x41; 15]);
    let full = all(&[0xD0, 0xFF, 0xCC, 0xCB], &set);
    assert_eq!((counts(&full), full[0].len()), (vec![106], 4_096));
    assert_eq!(counts(&all(&[0xD0, 0xFF, 0xCC, 0xCB, 0], &set)), [106, 1]);
    assert_read_back(&[0xD0, 0xFF, 0xCC, 0xCB, 0], &set);
}

#[test]
fn the_longest_of_one_table() {
    let set = status_texts();
    assert_eq!(assert_read_back(&[0xD0; 255], &set), 229);
    let messages = all(&[0xD0; 255], &set);
    for index in [1, 2, 228, 229] {
        let mut buffer = vec![0xEE; HANDHELD.message];
        let told = report(&query(&[0xD0; 255]), index, true, &set, &mut buffer);
        let message = &messages[index as usize - 1];
        assert_eq!(told, Ok(Reported { total: 229, length: message.len() }));
        assert_eq!(buffer[..message.len()], message[..]);
        assert!(buffer[message.len()..].iter().all(|&byte| byte == 0xEE));
    }
    let past = report(&query(&[0xD0; 255]), 230, true, &set, &mut vec![0; HANDHELD.message]);
    assert_eq!(past, Err(16));
}

/// A set with small messages would pass 255 of them, and has no report then.
#[test]
fn over_255_messages() {
    let mut set = Set::fresh(Limits { message: REPORT_HEAD + 5, ..HANDHELD });
    set.tables.channels = vec![241; 51];
    let small = |types: &[u8]| messages(types, &set).map(|some| some.len());
    assert_eq!(small(&[0xCE; 5]), Some(255));
    assert_eq!(small(&[0xCE, 0xCE, 0xCE, 0xCE, 0xCE, 0xCD]), None);
    assert_eq!(small(&[0xCE, 0xCE, 0xCE, 0xCE, 0xCE, 0xC8]), Some(255));
}

/// A vehicle's 256 channels, asked for 254 times, are 65,024 parameters and fill 255 messages; once more, and it is refused with 4.
#[test]
fn the_channels_of_a_vehicle() {
    let mut set = Set::fresh(VEHICLE);
    set.tables.channels = (241..).take(256).collect();
    assert_eq!(counts(&all(&[0xCE], &set)), [255, 1]);
    assert_eq!(assert_read_back(&[0xCE; 254], &set), 255);
    assert_eq!(messages(&[0xCE; 255], &set), None);
    for index in [0, 1, 256] {
        let mut buffer = vec![0xEE; 8_192];
        assert_eq!(report(&query(&[0xCE; 255]), index, true, &set, &mut buffer), Err(4));
        assert!(buffer.iter().all(|&byte| byte == 0xEE));
    }
    set.tables.channels.pop();
    assert_eq!(assert_read_back(&[0xCE; 255], &set), 255);
}

/// A vehicle's messages are cut at 8,192 bytes: 215 status texts of 38 bytes each, where a hand-held's have 107.
#[test]
fn a_vehicle_cuts_later() {
    let mut set = Set { limits: VEHICLE, ..status_texts() };
    let messages = all(&[0xD0; 3], &set);
    assert_eq!(counts(&messages), [215, 73]);
    assert_eq!(messages.iter().map(Vec::len).collect::<Vec<_>>(), [8_180, 2_784]);
    assert_read_back(&[0xD0; 3], &set);
    // 215 texts again, and two keys of 6 bytes each, to the last byte.
    set.tables.status_texts.truncate(43);
    let full = all(&[0xD0, 0xD0, 0xD0, 0xD0, 0xD0, 0xCB, 0xCB], &set);
    assert_eq!((counts(&full), full[0].len()), (vec![217], 8_192));
    let over = all(&[0xD0, 0xD0, 0xD0, 0xD0, 0xD0, 0xCB, 0xCB, 0], &set);
    assert_eq!(counts(&over), [217, 1]);
}

/// How many reports of a set as it grows were read back, how many had several messages, and how many ended with an error.
fn read_back(seed: u64, limits: Limits) -> [usize; 3] {
    let (mut inputs, mut set, mut met) = (Inputs::new(seed, limits), Set::fresh(limits), [0; 3]);
    for _ in 0..20 {
        judge_and_commit(&inputs.message(), &mut set, &mut [0; REPLY_ROOM]);
        let query = inputs.report_call().query;
        let Ok(types) = types(&query, limits) else { continue };
        if messages(types, &set).is_none() {
            continue;
        }
        met[0] += 1;
        met[1] += usize::from(assert_read_back(types, &set) > 1);
        met[2] += usize::from(asked(types, &set).iter().any(Item::is_error));
    }
    met
}

#[test]
fn many_sets_are_read_back() {
    let sum = |met: [usize; 3], more: [usize; 3]| std::array::from_fn(|at| met[at] + more[at]);
    for limits in [HANDHELD, VEHICLE] {
        let [reports, several, errors] =
            (0..60).map(|seed| read_back(seed, limits)).fold([0; 3], sum);
        println!(
            "{reports} reports, {several} of several messages, {errors} that end with an error"
        );
        assert!(reports > 700 && several > 50 && errors > 100);
    }
}
