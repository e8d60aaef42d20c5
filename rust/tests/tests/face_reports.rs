//! Queries and the reports that answer them: every type, every cut, full stores and the order of the refusals, by the archive and by the reference.

use otap::{Outcome, Refusal, REPLY_ROOM};
use otap_reference::inputs::maker::parameters::ASKED;
use otap_reference::inputs::reports::ReportCall;
use otap_reference::inputs::Inputs;
use otap_reference::reference::limits::HANDHELD;
use otap_reference::reference::message::Hash;
use otap_reference::reference::queries::{query, types};
use otap_reference::reference::reports::items::Item;
use otap_reference::reference::reports::{asked, messages, Reported};
use otap_reference::reference::settings::Operation::{Add, Delete, Replace};
use otap_reference::reference::settings::{LastItem, LineEntry, LineFlags, Setting};
use otap_tests::for_both_sets;
use otap_tests::pair::{commit_judged, Pair};
use otap_tests::reports::{items, read_by_both, unranked, EACH};
use otap_tests::sets::Tried;
use otap_tests::{bytes, hex_request, lines_of, request, units};
use std::collections::BTreeMap;

for_both_sets!(
    by_hand,
    every_type,
    full_stores,
    asked_255_times,
    counts_of_messages,
    to_the_last_byte,
    every_cut_of_a_query,
    refusals_in_order,
    taking_refuses_queries_and_reports,
    queries_to_many_stores,
    no_store_has_a_report,
);

/// The longest texts, of 16 units and of 23.
const LONG: &str = "警警警警警警警警警警警警警警警警";
const LONGER: &str = "察察察察察察察察察察察察察察察察察察察察察察察";

/// Every table full, and each text of the type asked as long as it may be. Of a hand-held the others are as short as they may be, since all share one area.
fn full<K: Tried>(asked: u8) -> Pair<K> {
    let is_long = |byte| byte == asked || K::TEXT_BYTES.is_none();
    let text = |byte| if is_long(byte) { LONG } else { "" };
    let addresses = |byte| (0x10_0001..).take(64).map(|at| (at, text(byte))).collect::<Vec<_>>();
    let quick = if is_long(0xCC) { LONGER } else { "A" };
    let quick: Vec<_> = (0..64).map(|index| (index, quick)).collect();
    let status: Vec<_> = (32..128).map(|code| (code, text(0xD0))).collect();
    let channels: Vec<_> = (241..).take(K::MOST_CHANNELS).collect();
    let line = |place: u8| LineEntry {
        digits: [&[7; 15][..], &[place / 100, place / 10 % 10, place % 10]].concat(),
        text: units(text(0xCA)),
    };
    let flags = LineFlags { pabx: true, ..LineFlags::default() };
    let entries = (0..K::MOST_LINES as u8).map(line).collect();
    let lines = Setting::Lines { operation: Replace, flags, entries };
    let requests = [
        vec![otap_tests::group_contacts(Replace, 3, &addresses(0xC8)), lines.write()],
        vec![otap_tests::individual_contacts(Replace, &addresses(0xC9))],
        vec![otap_tests::quick(Replace, &quick[..63]), otap_tests::quick(Add, &quick[63..])],
        vec![otap_tests::status(Replace, &status)],
        vec![otap_tests::channels(Replace, &channels), stamped()],
    ];
    let mut pair = Pair::<K>::fresh();
    for settings in requests {
        assert_eq!(pair.commit(&request(&settings)), 0);
    }
    pair
}

/// A last item with the longer hash, which a request without one would not leave.
fn stamped() -> Vec<u8> {
    let hash = Hash::Stamped([7; 10]);
    Setting::Last(LastItem { reboot: false, reply: false, hash }).write()
}

/// One entry of each table, and what is always there.
fn each<K: Tried>() -> Pair<K> {
    let mut pair = Pair::<K>::fresh();
    assert_eq!(pair.commit(&hex_request(&EACH.map(|(setting, ..)| setting))), 0);
    pair
}

/// All messages of the report, which are those of the reference; read by the face they are what was asked for. Says how many there are.
fn assert_read_back<K: Tried>(pair: &mut Pair<K>, types: &[u8]) -> usize {
    let said = pair.messages_to(types);
    let wanted = messages(types, &pair.set).expect("at most 255 messages");
    assert!(said == wanted, "the messages to {types:02X?}");
    let read: Vec<Item> = said.iter().flat_map(|message| items::<K>(message)).collect();
    assert!(read == unranked(asked(types, &pair.set)), "what was asked for by {types:02X?}");
    said.len()
}

fn by_hand<K: Tried>() {
    let mut pair = each::<K>();
    let reported = EACH.map(|(_, byte, parameter)| (byte, parameter));
    for (byte, parameter) in reported.into_iter().chain([(0xD1, "D1 83"), (0x88, "88 83")]) {
        let parameter = bytes(parameter);
        let head = [2, 2, 0, 6 + parameter.len() as u8, 8, 7, 0x0B, 1, 1, 1];
        assert_eq!(pair.messages_to(&[byte]), [[&head[..], &parameter].concat()], "{byte:02X}");
        let length = head.len() + parameter.len();
        let told = pair.report_into(&query(&[byte]), 1, K::LONGEST_MESSAGE);
        assert_eq!(told, Ok(Reported { total: 1, length }), "{byte:02X}");
    }
}

/// Each of the 256 bytes by itself and behind others, on a fresh store, a small one and a full one.
fn every_type<K: Tried>() {
    for mut pair in [Pair::<K>::fresh(), each::<K>(), full::<K>(0xD0)] {
        for byte in 0..=255 {
            let asks = ASKED.contains(&byte);
            for types in [vec![byte], vec![0xCE, byte, 0xCD], vec![byte; 3]] {
                let total = assert_read_back(&mut pair, &types);
                for index in 0..=total as u32 + 1 {
                    let told = pair.report_into(&query(&types), index, K::LONGEST_MESSAGE);
                    assert_eq!(told.is_ok(), (1..=total as u32).contains(&index));
                }
                for message in pair.messages_to(&types) {
                    assert_eq!(read_by_both::<K>(&message), 0);
                }
                let last = asked(&types, &pair.set).pop();
                assert_eq!(last == Some(Item::Unknown(byte)), !asks, "{byte:02X}");
            }
        }
    }
}

/// How many messages each of some types has when a full set is asked for it 255 times, or none where they are over 255.
fn totals<K: Tried>() -> [(u8, Option<usize>); 5] {
    let [d0, cc, c8, cd, ce] = match K::LIMITS {
        HANDHELD => [229, 204, 165, 1, 64].map(Some),
        _ => [Some(114), Some(102), Some(83), Some(1), None],
    };
    [(0xD0, d0), (0xCC, cc), (0xC8, c8), (0xCD, cd), (0xCE, ce)]
}

/// Of each table by itself and of the ten in one report.
fn full_stores<K: Tried>() {
    let (lines, channels) = (48 * K::MOST_LINES, 5 * K::MOST_CHANNELS);
    let lengths = [2_624, 2_560, lines, 6, 3_264, 5, channels, 5, 3_648, 13];
    for (byte, length) in ASKED.into_iter().zip(lengths) {
        let messages = full::<K>(byte).messages_to(&[byte]);
        let parameters: usize = messages.iter().map(|message| message.len() - 10).sum();
        // 256 channels are one more than a message counts.
        let is_cut = byte == 0xCE && K::MOST_CHANNELS == 256;
        assert_eq!(
            (parameters, messages.len()),
            (length, if is_cut { 2 } else { 1 }),
            "{byte:02X}"
        );
    }
    // Of a hand-held the first message has 255 parameters, and the other what is left of 388.
    let total = assert_read_back(&mut full::<K>(0xD0), &ASKED);
    assert_eq!(total, if K::LIMITS == HANDHELD { 2 } else { 3 });
}

/// Of one table as often as a query can ask: a report with its last message and none behind it, or refused with 4.
fn asked_255_times<K: Tried>() {
    for (byte, total) in totals::<K>() {
        let (mut pair, types) = (full::<K>(byte), [byte; 255]);
        if let Some(total) = total {
            assert_eq!(assert_read_back(&mut pair, &types), total, "{byte:02X}");
        }
        let (total, number) = total.map_or((0, 4), |total| (total as u32, 16));
        for index in [0, 1, 2, total, total + 1, total + 256] {
            let told = pair.report_into(&query(&types), index, K::LONGEST_MESSAGE);
            let there = (1..=total).contains(&index);
            assert_eq!(told.err(), (!there).then_some(number), "{byte:02X} {index}");
        }
    }
}

/// Every message has what its bytes and its count allow, of a hand-held and of a vehicle.
fn counts_of_messages<K: Tried>() {
    let mut pair = full::<K>(0xD0);
    let mut counts =
        |types: &[u8]| pair.messages_to(types).iter().map(|message| message[9]).collect::<Vec<_>>();
    if K::LIMITS == HANDHELD {
        assert_eq!(counts(&[0xCE; 4]), [255, 1]);
        assert_eq!(counts(&[0xD0; 2]), [107, 85]);
    } else {
        assert_eq!(counts(&[0xCE]), [255, 1]);
        assert_eq!(counts(&[0xD0; 3]), [215, 73]);
        assert_eq!(counts(&[0xCE; 254]), [vec![255; 254], vec![254]].concat());
    }
}

/// Every message of a report is as full as it can be, up to the last byte.
fn to_the_last_byte<K: Tried>() {
    let mut pair = full::<K>(0xD0);
    // 96 status texts, a hash and eight quick texts leave 17 bytes of a hand-held's, which CD, CF and CD fill but for two; with 64 quick texts
    // 25 lines and 11 CD do so of a vehicle's.
    let (quick, lines, fits) = match K::LIMITS {
        HANDHELD => (8, 0, [&[0xD0, 0xFF, 0xCC, 0xCD, 0xCF][..], &[0xCD]].concat()),
        _ => (64, 25, [&[0xD0, 0xFF, 0xCC, 0xCA][..], &[0xCD; 11]].concat()),
    };
    keep(&mut pair, quick, lines);
    let most = K::LONGEST_MESSAGE;
    for (more, lengths) in [(&[][..], &[most - 2][..]), (&[0], &[most]), (&[0xCB], &[most - 2, 16])]
    {
        let types = [&fits[..], more].concat();
        assert!(pair.messages_to(&types).iter().map(Vec::len).eq(lengths.iter().copied()));
        assert_eq!(assert_read_back(&mut pair, &types), lengths.len());
    }
}

/// Leaves so many quick texts, which are the longest, and lines of a full set, and a hash.
fn keep<K: Tried>(pair: &mut Pair<K>, quick: u8, lines: usize) {
    let texts: Vec<_> = (0..quick).map(|index| (index, LONGER)).collect();
    let (most, more) = texts.split_at(texts.len().min(63));
    let gone: Vec<Vec<u8>> =
        pair.set.tables.lines[lines..].iter().map(|line| line.digits.clone()).collect();
    let gone: Vec<&[u8]> = gone.iter().map(|digits| &digits[..]).collect();
    let quick = [otap_tests::quick(Replace, most), otap_tests::quick(Add, more)];
    let settings = [&quick[..], &[lines_of(true, Delete, &gone), stamped()]].concat();
    assert_eq!(pair.commit(&request(&settings)), 0);
}

/// A query that is cut anywhere, its length stated as it was, stated anew or not stated.
fn every_cut_of_a_query<K: Tried>() {
    let mut pair = each::<K>();
    let whole = query(&[0xC8, 0xCE, 0xD1, 0xCD]);
    for cut in 0..=whole.len() {
        let mut message = whole[..cut].to_vec();
        let as_it_was = pair.report_into(&message, 1, K::LONGEST_MESSAGE).err().unwrap_or(0);
        let is_short = cut < 7;
        let is_whole = cut == whole.len();
        assert_eq!(
            as_it_was,
            if is_short {
                12
            } else if is_whole {
                0
            } else {
                13
            },
            "{cut}"
        );
        if is_short {
            continue;
        }
        for stated in [cut - 4, 0] {
            message[3] = stated as u8;
            let number = pair.report_into(&message, 1, K::LONGEST_MESSAGE).err().unwrap_or(0);
            assert_eq!(number, if is_whole { 0 } else { 4 }, "{cut} {stated}");
        }
    }
}

/// All is wrong at first, and then one thing after the other is right: each number in its turn, and no byte is written before the last.
fn refusals_in_order<K: Tried>() {
    let mut pair = each::<K>();
    let mut none = Pair::<K>::of(pair.bytes[1..].to_vec(), pair.set.clone());
    let short = bytes("03 02 00 00 08 07");
    assert_eq!(none.report_into(&short, 9, K::LONGEST_MESSAGE - 1), Err(15));
    assert_eq!(none.report_into(&short, 9, K::LONGEST_MESSAGE), Err(11));
    let steps = [
        (&short[..], 12),
        (&bytes("03 02 00 00 08 07 10 02 CE"), 13),
        (&bytes("02 02 00 00 08 07 10 02 CE"), 14),
        (&bytes("02 02 00 00 08 07 12 02 CE"), 1),
        (&bytes("02 02 00 00 08 07 0A 02 CE"), 4),
        (&bytes("02 02 00 00 08 07 0A 01 CE CE"), 4),
        (&bytes("02 02 00 00 08 07 0A 00"), 4),
        (&bytes("02 02 00 00 08 07 0A"), 4),
        (&bytes("02 02 00 00 08 07 0A 01 CE"), 16),
    ];
    for (query, number) in steps {
        assert_eq!(pair.report_into(query, 9, K::LONGEST_MESSAGE - 1), Err(15));
        assert_eq!(pair.report_into(query, 9, K::LONGEST_MESSAGE), Err(number), "{query:02X?}");
        assert_eq!(none.report_into(query, 9, K::LONGEST_MESSAGE), Err(11));
    }
    let good = query(&[0xCE]);
    for index in [0, 2, 255, 256, 257, 0x1_0001, 0x8000_0001, u32::MAX] {
        assert_eq!(pair.report_into(&good, index, K::LONGEST_MESSAGE), Err(16), "{index}");
        let mut buffer = vec![0; K::LONGEST_MESSAGE];
        let refusal = pair.store().report(&good, index, &mut buffer);
        assert_eq!(refusal, Err(Refusal::NoSuchMessage));
    }
    assert!(pair.report_into(&good, 1, K::LONGEST_MESSAGE).is_ok());
}

/// A query, and a report, is no message to commit: 14, and the store stays.
fn taking_refuses_queries_and_reports<K: Tried>() {
    let mut pair = full::<K>(0xD0);
    let report = pair.messages_to(&[0xCE]).remove(0);
    for message in [query(&[0xCE]), query(&ASKED), report] {
        assert_eq!(pair.commit(&message), 14);
        let mut store = pair.store();
        let outcome = commit_judged(&mut store, &message, &mut [0; REPLY_ROOM]).outcome;
        assert_eq!(outcome, Outcome::Refused(Refusal::WrongMessageType));
    }
}

fn queries_to_many_stores<K: Tried>() {
    let mut met: BTreeMap<u8, usize> = BTreeMap::new();
    let (mut several, mut read_back) = (0, 0);
    for seed in 8_000..8_040 {
        let mut inputs = Inputs::new(seed, K::LIMITS);
        let mut pair = Pair::<K>::fresh();
        for turn in 0..40 {
            pair.commit(&inputs.message());
            let ReportCall { query, index } = inputs.report_call();
            let told = pair.report_into(&query, index, K::LONGEST_MESSAGE + turn);
            several += usize::from(told.is_ok_and(|told| told.total > 1));
            *met.entry(told.err().unwrap_or(0)).or_default() += 1;
            let types = types(&query, K::LIMITS).ok();
            // Over 255 messages are no report.
            if let Some(types) = types.filter(|types| messages(types, &pair.set).is_some()) {
                read_back += assert_read_back(&mut pair, types);
            }
        }
    }
    println!("{met:?}, {several} of several messages; {read_back} messages read back");
    let kinds: Vec<u8> = met.keys().copied().collect();
    assert_eq!(kinds, [0, 1, 4, 12, 13, 14, 16]);
    assert!(met[&0] > 800 && met[&16] > 100 && several > 50 && read_back > 1_500);
}

/// Bytes that no store has: 11, and nothing is written.
fn no_store_has_a_report<K: Tried>() {
    let mut pair = full::<K>(0xD0);
    for place in [0, 11, 19, K::STORE_SIZE - 1] {
        let held = std::mem::replace(&mut pair.bytes[place], 0xFE);
        let mut buffer = vec![0; K::LONGEST_MESSAGE];
        let refusal = pair.store().report(&query(&ASKED), 1, &mut buffer);
        assert_eq!(refusal, Err(Refusal::NotAStore), "{place}");
        assert!(buffer == vec![0; K::LONGEST_MESSAGE], "a refusal touches no byte");
        pair.bytes[place] = held;
    }
}
