//! Properties of the reference itself: conversions both ways, writing and reading under both coding types, exports.

use otap_reference::inputs::random::Random;
use otap_reference::inputs::Inputs;
use otap_reference::reference::commit::{commit, judge, judge_and_commit, REPLY_ROOM};
use otap_reference::reference::export::{export, part_bytes, Exported, PARTS};
use otap_reference::reference::message::request_as;
use otap_reference::reference::numbers::*;
use otap_reference::reference::plan::*;
use otap_reference::reference::screen::{row_number, row_part, Row, Shown, SCRATCH_ROOM};
use otap_reference::reference::settings::{parse, Operation, Setting};
use otap_reference::reference::tables::Set;
use otap_reference::reference::texts::Coding;
use otap_tests::fitting::{foreseen, Stopped};
use otap_tests::for_both_sets;
use otap_tests::sets::Tried;
use otap_tests::{number_in, request, settings_of, taken, units};
use std::collections::HashSet;

for_both_sets!(
    the_ten_exports_give_the_same_tables,
    a_full_set_is_exported_whole,
    exports_of_a_fresh_set,
    export_refusals_touch_nothing,
    writing_and_reading_agree,
    bytes_of_texts_are_read_one_way,
    both_coding_types_leave_the_same_set,
    only_a_taken_request_changes_the_set,
    any_reply_buffer,
);

#[test]
fn every_address_and_back() {
    let (mut individuals, mut groups) = (0, 0);
    for address in 0..=0xFF_FFFF {
        match dialled_individual(IndividualAddress(address)) {
            Ok(number) => {
                individuals += 1;
                assert_eq!(individual(number), Ok(IndividualAddress(address)));
            }
            Err(number) => assert_eq!(number, NOT_IN_KIND),
        }
        match dialled_group(GroupAddress(address)) {
            Ok(number) => {
                groups += 1;
                assert_eq!(group(number), Ok(GroupAddress(address)));
            }
            Err(number) => assert_eq!(number, NOT_IN_KIND),
        }
    }
    assert_eq!(individuals, 479 * (22 * 700 + 48 * 350));
    assert_eq!(groups, 479 * 70 * 100);
}

#[test]
fn every_dialled_number_and_back() {
    let (mut individuals, mut groups) = (0, 0);
    for number in 0..=100_000_000 {
        if let Ok(address) = individual(number) {
            individuals += 1;
            assert_eq!(dialled_individual(address), Ok(number));
        }
        if let Ok(address) = group(number) {
            groups += 1;
            assert_eq!(dialled_group(address), Ok(number));
        }
    }
    assert_eq!(individuals, 479 * (22 * 700 + 48 * 350));
    assert_eq!(groups, 479 * 70 * 100);
}

#[test]
fn every_channel_and_back() {
    let values: HashSet<u32> = (1..=640).map(|number| transmit(number).unwrap()).collect();
    assert_eq!(values.len(), 640);
    for number in 1..=640 {
        assert_eq!(channel(transmit(number).unwrap()), Ok(number));
        let distance = if number <= 240 { 0 } else { 100_000 };
        assert_eq!(receive(number).unwrap(), transmit(number).unwrap() + distance);
    }
    for value in 3_500_000..3_720_000 {
        assert_eq!(channel(value).is_ok(), values.contains(&value));
    }
    for number in [0, 641, 4_095, u32::MAX] {
        assert_eq!((transmit(number), receive(number)), (Err(22), Err(22)));
    }
}

/// Reaches a state from random messages, and hands it on after each.
fn for_each_state<K: Tried>(seeds: u64, messages: usize, mut check: impl FnMut(&Set)) {
    for seed in 0..seeds {
        let mut inputs = Inputs::new(seed, K::LIMITS);
        let mut set = Set::fresh(K::LIMITS);
        for _ in 0..messages {
            judge_and_commit(&inputs.message(), &mut set, &mut [0; REPLY_ROOM]);
            check(&set);
        }
    }
}

/// The first part that is not taken.
fn commit_exports<K: Tried>(from: &Set, into: &mut Set) -> Stopped {
    (1..=PARTS).find_map(|part| {
        let message = part_bytes(part, from).unwrap();
        assert!(message.len() <= K::LIMITS.message);
        let (number, failed) = number_in(&message, into);
        (number != TAKEN).then_some((part.into(), number, failed))
    })
}

/// Of a fresh set always, and of a used one as counting foresees: of vehicles always, too.
fn the_ten_exports_give_the_same_tables<K: Tried>() {
    let (mut other, mut stopped) = (Set::fresh(K::LIMITS), 0);
    for_each_state::<K>(30, 100, |set| {
        let wanted = foreseen(set, &other);
        assert_eq!(commit_exports::<K>(set, &mut other), wanted);
        assert_eq!(other.tables == set.tables, wanted.is_none());
        stopped += usize::from(wanted.is_some());
        let mut fresh = Set::fresh(K::LIMITS);
        assert_eq!(commit_exports::<K>(set, &mut fresh), None);
        assert_eq!(fresh.tables, set.tables);
    });
    println!("{stopped} stopped");
    assert_eq!(stopped > 0, K::TEXT_BYTES.is_some());
}

fn a_full_set_is_exported_whole<K: Tried>() {
    let long = "y".repeat(23);
    let quick: Vec<(u8, &str)> = (0..63).map(|index| (index, long.as_str())).collect();
    // Of a hand-held so many are 4,096 bytes with the quick texts.
    let last = if K::TEXT_BYTES.is_some() { 32 + 36 } else { 128 };
    let status: Vec<(u8, &str)> = (32..last).map(|code| (code, &long[..16])).collect();
    let mut set = Set::fresh(K::LIMITS);
    let quick = [
        otap_tests::quick(Operation::Add, &quick),
        otap_tests::quick(Operation::Add, &[(63, &long)]),
    ];
    assert_eq!(number_in(&request(&quick), &mut set), (TAKEN, 0));
    let status = otap_tests::status(Operation::Add, &status);
    assert_eq!(number_in(&request(&[status]), &mut set), (TAKEN, 0));
    let part = part_bytes(3, &set).unwrap();
    assert_eq!((part.len(), part[7]), (8 + 4 + 63 * 49 + 4 + 49, 2));
    let mut other = Set::fresh(K::LIMITS);
    assert_eq!(commit_exports::<K>(&set, &mut other), None);
    assert_eq!(other.tables, set.tables);
}

fn exports_of_a_fresh_set<K: Tried>() {
    let set = Set::fresh(K::LIMITS);
    let expected = [
        (1, "02 02 00 09 08 07 08 01 CA 00 04 C0 00"),
        (2, "02 02 00 14 08 07 08 03 CB 00 03 80 CD 00 05 00 00 00 CF 00 05 00 00 00"),
        (3, "02 02 00 08 08 07 08 01 CC 00 03 C0"),
        (4, "02 02 00 09 08 07 08 01 CE 00 04 C0 00"),
        (5, "02 02 00 09 08 07 08 01 D0 00 04 C0 00"),
        (8, "02 02 00 0A 08 07 08 01 C8 00 05 D0 00 00"),
        (9, "02 02 00 09 08 07 08 01 C9 00 04 C0 00"),
    ];
    for (part, hex) in expected {
        assert_eq!(part_bytes(part, &set), Some(otap_tests::bytes(hex)));
    }
    for (part, kind) in [(6, 0xD1), (7, 0xD2)] {
        let message = part_bytes(part, &set).unwrap();
        assert_eq!((message.len(), message[7]), (168, 16));
        for (index, setting) in (0..16).zip(message[8..].chunks(10)) {
            assert_eq!(setting, [kind, 0, 9, 0x80, index, 0, 0, 0, 0, 0]);
        }
    }
    let message = part_bytes(10, &set).unwrap();
    assert_eq!((message.len(), message[7]), (136, 16));
    for (index, setting) in (0..16).zip(message[8..].chunks(8)) {
        assert_eq!(setting, [0xD3, 0, 7, 0x80, index, 0x0F, 0, 0]);
    }
}

fn export_refusals_touch_nothing<K: Tried>() {
    let set = Set::fresh(K::LIMITS);
    let refused = |number| Exported { number, length: 0 };
    let mut buffer = vec![0xEE; K::LIMITS.message];
    assert_eq!(export(PARTS + 2, false, &set, &mut buffer[1..]), refused(BUFFER_SHORT));
    assert_eq!(export(PARTS + 2, false, &set, &mut buffer), refused(NOT_A_STORE));
    assert_eq!(export(0, true, &set, &mut buffer), refused(NO_SUCH_PART));
    assert_eq!(export(PARTS + 1, true, &set, &mut buffer), refused(NO_SUCH_PART));
    assert!(buffer.iter().all(|&byte| byte == 0xEE));
    assert_eq!(export(3, true, &set, &mut buffer), Exported { number: TAKEN, length: 12 });
    assert!(buffer[12..].iter().all(|&byte| byte == 0xEE));
}

fn has_texts(setting: &Setting) -> bool {
    match setting {
        Setting::GroupContacts { entries, .. } => !entries.is_empty(),
        Setting::IndividualContacts { entries, .. } => !entries.is_empty(),
        Setting::Lines { entries, .. } => !entries.is_empty(),
        Setting::QuickTexts { entries, .. } => !entries.is_empty(),
        Setting::StatusTexts { entries, .. } => !entries.is_empty(),
        Setting::Group { .. } | Setting::Individual { .. } | Setting::LineSlot { .. } => true,
        _ => false,
    }
}

fn for_each_message<K: Tried>(seeds: u64, messages: usize, mut check: impl FnMut(&[u8])) {
    for seed in 0..seeds {
        let mut inputs = Inputs::new(seed, K::LIMITS);
        (0..messages).for_each(|_| check(&inputs.message()));
    }
}

/// Every setting that is read can be written and read again to the same, under each coding type that it has a writing for.
fn writing_and_reading_agree<K: Tried>() {
    let (mut own, mut other) = (0, 0);
    for_each_message::<K>(40, 50, |message| {
        for coding in Coding::ALL {
            for (setting, _) in settings_of(message, coding) {
                assert!(setting.write_as(coding).is_some(), "what was read has a writing");
                for written_as in Coding::ALL {
                    let Some(written) = setting.write_as(written_as) else { continue };
                    let again = parse(&written, written_as, true);
                    assert_eq!(again, Ok((setting.clone(), written.len())));
                    *if written_as == coding { &mut own } else { &mut other } += 1;
                }
            }
        }
    });
    assert!(own > 5_000 && other > 2_500, "{own} settings, {other} of them also the other way");
}

/// A setting with a text is read under one coding type at most, and one without is read to the same under both.
fn bytes_of_texts_are_read_one_way<K: Tried>() {
    let (mut texts, mut others) = (0, 0);
    for_each_message::<K>(40, 50, |message| {
        for (coding, other) in [(Coding::Eight, Coding::Unicode), (Coding::Unicode, Coding::Eight)]
        {
            for (setting, bytes) in settings_of(message, coding) {
                let read = parse(bytes, other, true);
                if has_texts(&setting) {
                    assert!(read.is_err(), "{bytes:02X?}");
                    texts += 1;
                } else {
                    assert_eq!(read, Ok((setting, bytes.len())));
                    others += 1;
                }
            }
        }
    });
    assert!(texts > 2_000 && others > 2_000, "{texts} settings with texts, {others} without");
}

/// The same settings as a request under a coding type, where they have one of an allowed length.
fn rewritten<K: Tried>(settings: &[(Setting, &[u8])], coding: Coding) -> Option<Vec<u8>> {
    let written = settings.iter().map(|(setting, _)| setting.write_as(coding));
    let message = request_as(coding, &written.collect::<Option<Vec<_>>>()?);
    let allowed = (1..=255).contains(&settings.len()) && message.len() <= K::LIMITS.message;
    allowed.then_some(message)
}

/// The same settings under both coding types come to the same number, failed ID and set.
fn both_coding_types_leave_the_same_set<K: Tried>() {
    let (mut set, mut changed, mut refused) = (Set::fresh(K::LIMITS), 0, 0);
    for_each_message::<K>(60, 60, |message| {
        for settings in Coding::ALL.map(|coding| settings_of(message, coding)) {
            let both = Coding::ALL.map(|coding| rewritten::<K>(&settings, coding));
            let [Some(narrow), Some(wide)] = both else { continue };
            let (mut one, mut two) = (set.clone(), set.clone());
            let number = number_in(&narrow, &mut one);
            assert_eq!(number, number_in(&wide, &mut two), "{narrow:02X?}");
            assert_eq!(one, two, "{narrow:02X?}");
            let texts = settings.iter().any(|(setting, _)| has_texts(setting));
            changed += usize::from(texts && one != set);
            refused += usize::from(texts && number != (TAKEN, 0));
        }
        number_in(message, &mut set);
    });
    assert!(changed > 300 && refused > 100, "{changed} changed the set, {refused} were refused");
}

/// A refusal leaves the set, whatever the message.
fn only_a_taken_request_changes_the_set<K: Tried>() {
    let mut random = Random::new(7);
    for seed in 0..20 {
        let mut inputs = Inputs::new(seed, K::LIMITS);
        let mut set = Set::fresh(K::LIMITS);
        for _ in 0..100 {
            let before = set.clone();
            let message = inputs.message();
            let fill = random.bits(8) as u8;
            let mut reply = [fill; 30];
            let answer = commit(&message, &mut set, &mut reply);
            if answer.number != TAKEN {
                assert_eq!(set, before);
            }
            assert!(reply[answer.length..].iter().all(|&byte| byte == fill));
            assert_eq!(answer.length > 0, answer.number <= NO_MATCH);
        }
    }
}

/// A message that was judged is committed with the same answer and reply, whatever both reply buffers hold and however long they are, from 20 bytes on.
fn any_reply_buffer<K: Tried>() {
    let mut random = Random::new(6);
    for seed in 100..120 {
        let mut inputs = Inputs::new(seed, K::LIMITS);
        let mut set = Set::fresh(K::LIMITS);
        for _ in 0..100 {
            let message = inputs.message();
            let mut buffer = || [random.bytes_up_to(30), vec![0xEE; REPLY_ROOM]].concat();
            let (mut forecast, mut reply) = (buffer(), buffer());
            let held = [forecast.clone(), reply.clone()];
            let judged = judge(&message, &set, &mut forecast);
            assert_eq!(commit(&message, &mut set, &mut reply), judged, "{message:02X?}");
            assert_eq!(forecast[..judged.length], reply[..judged.length], "{message:02X?}");
            for (held, buffer) in held.iter().zip([&forecast, &reply]) {
                assert_eq!(buffer[judged.length..], held[judged.length..], "{message:02X?}");
            }
        }
    }
}

#[test]
fn screen_rows() {
    let set = taken(&otap_tests::hex_request(&[
        "CA 00 0F 40 02 23 45 FF 00 00 12 3F 00 41 00 00",
        "D0 00 07 40 01 20 00 00",
        "D1 00 09 60 00 10 00 01 00 00",
        "D1 00 09 60 01 10 1B 59 00 00",
        "D1 00 0B 60 02 10 00 01 4E 2D 00 00",
        "D2 00 09 40 00 10 00 01 00 00",
        "D2 00 09 40 0F FF 7D C9 00 00",
        "C8 00 0C 50 00 01 10 00 01 00 41 00 00",
        "C8 00 0A 70 00 01 10 00 02 00 00",
        "C9 00 0B 40 01 10 00 01 00 42 00 00",
        "D3 00 07 40 0F 1F 00 00",
    ]));
    let shown = |row| row_part(row, true, &set, &mut [0; SCRATCH_ROOM]);
    assert_eq!(shown(Row::Line(0)), Shown::Scratch(units("2345")));
    assert_eq!(shown(Row::Line(1)), Shown::Stored(units("A")));
    assert_eq!(shown(Row::Line(2)), Shown::Nothing);
    assert_eq!(shown(Row::Status(32)), Shown::Stored(Vec::new()));
    assert_eq!(shown(Row::Status(31)), Shown::Nothing);
    assert_eq!(shown(Row::Quick(0)), Shown::Nothing);
    assert_eq!(shown(Row::Group(0)), Shown::Scratch(units("32820900")));
    assert_eq!(shown(Row::Group(1)), Shown::Scratch(units("101B59")));
    assert_eq!(shown(Row::Group(2)), Shown::Stored(vec![0x4E2D]));
    assert_eq!(shown(Row::Individual(0)), Shown::Scratch(units("32820200")));
    assert_eq!(shown(Row::Individual(15)), Shown::Scratch(units("FF7DC9")));
    assert_eq!(shown(Row::Individual(16)), Shown::Nothing);
    assert_eq!(shown(Row::GroupContact(0)), Shown::Nothing);
    assert_eq!(shown(Row::GroupContact(1)), Shown::Scratch(units("32820901")));
    assert_eq!(shown(Row::IndividualContact(0)), Shown::Stored(units("B")));
    assert_eq!(shown(Row::LineSlot(15)), Shown::Scratch(units("1")));
    let number = |row, is_store, room| row_number(row, is_store, &set, &vec![0; room]);
    assert_eq!(number(Row::Line(9), false, SCRATCH_ROOM - 1), BUFFER_SHORT);
    assert_eq!(number(Row::Line(9), false, SCRATCH_ROOM), NOT_A_STORE);
    assert_eq!(number(Row::Line(9), true, SCRATCH_ROOM), NO_SUCH_ROW);
    assert_eq!(number(Row::Status(32), true, SCRATCH_ROOM), TAKEN);
}

#[test]
fn a_shown_number_stands_at_the_start_of_the_scratch() {
    let set = taken(&otap_tests::hex_request(&["CA 00 09 40 01 23 45 FF 00 00"]));
    let mut scratch = [0xEE; 40];
    row_part(Row::Line(0), true, &set, &mut scratch);
    assert_eq!(scratch[..8], [0, b'2', 0, b'3', 0, b'4', 0, b'5']);
    assert!(scratch[8..].iter().all(|&byte| byte == 0xEE));
}
