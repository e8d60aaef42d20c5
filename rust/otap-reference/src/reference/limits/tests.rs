//! A vehicle beside a hand-held, by hand: rooms, sizes, and what one takes of the other's export.

use super::*;
use crate::layout;
use crate::reference::by_hand::{number, settings_of_size};
use crate::reference::commit::{commit, REPLY_ROOM};
use crate::reference::export::{export, part_bytes, Exported, PARTS};
use crate::reference::joining::{join, Refused};
use crate::reference::message::{request, REQUEST_HEAD};
use crate::reference::plan::GroupAddress;
use crate::reference::settings::{GroupFlags, Line, LineEntry, LineFlags, Operation, Setting};
use crate::reference::tables::Set;

/// So many numbers, of three digits.
fn add_lines(numbers: std::ops::Range<u8>) -> Vec<u8> {
    let digits = |number: u8| vec![number / 100, number / 10 % 10, number % 10];
    let entry = |number| LineEntry { digits: digits(number), text: Vec::new() };
    let (flags, entries) = (LineFlags::default(), numbers.map(entry).collect());
    request(&[Setting::Lines { operation: Operation::Add, flags, entries }.write()])
}

fn add_channels(count: usize) -> Vec<u8> {
    request(&[Setting::Channels { operation: Operation::Add, channels: vec![241; count] }.write()])
}

#[test]
fn each_has_its_room() {
    for (limits, lines, channels) in [(HANDHELD, 32, 64), (VEHICLE, 128, 256)] {
        let mut set = Set::fresh(limits);
        assert_eq!(set.free(), (lines, channels));
        assert_eq!(number(&mut set, &add_lines(0..lines as u8)), (0, 0));
        assert_eq!(number(&mut set, &add_lines(lines as u8..lines as u8 + 1)), (2, 1));
        assert_eq!(number(&mut set, &add_lines(0..1)), (0, 0), "a known number needs no place");
        assert_eq!(number(&mut set, &add_channels(channels + 1)), (2, 1));
        assert_eq!(number(&mut set, &add_channels(channels)), (0, 0));
        assert_eq!(number(&mut set, &add_channels(1)), (2, 1));
        assert_eq!((set.counts(), set.free()), ((lines, channels), (0, 0)));
        let kept = layout::bytes(&set);
        assert!(kept.len() == limits.store && layout::is_store(&kept, limits));
    }
}

#[test]
fn each_has_its_message_size() {
    for (limits, size) in [(HANDHELD, 4_096), (VEHICLE, 8_192)] {
        let of_size = |size| request(&settings_of_size(size - REQUEST_HEAD));
        let (longest, longer) = (of_size(size), of_size(size + 1));
        assert_eq!((longest.len(), longer.len()), (size, size + 1));
        assert_eq!(number(&mut Set::fresh(limits), &longest), (0, 0));
        assert_eq!(number(&mut Set::fresh(limits), &longer), (12, 0));
        let least = of_size(size - 200);
        let joined = |more, room: usize| join(&least, &of_size(more), limits, &mut vec![0; room]);
        assert_eq!(joined(208, size), Ok(size));
        let refused = |number| Err(Refused { number, failed: 0, second: false });
        assert_eq!(joined(209, size), refused(12));
        assert_eq!(joined(208, size - 1), refused(15));
    }
}

#[test]
fn export_buffers() {
    for (limits, size) in [(HANDHELD, 4_096), (VEHICLE, 8_192)] {
        let set = Set::fresh(limits);
        let told = |room| export(4, true, &set, &mut vec![0; room]);
        assert_eq!(told(size - 1), Exported { number: 15, length: 0 });
        assert_eq!(told(size), Exported { number: 0, length: 13 });
    }
}

/// Lines of 18 digits and 16 units, as long as a line can be.
fn with_lines(limits: Limits, count: usize) -> Set {
    let mut set = Set::fresh(limits);
    let number = |place: usize| {
        let mut digits = vec![9; 18];
        digits[..3].copy_from_slice(&[place / 100, place / 10 % 10, place % 10].map(|d| d as u8));
        digits
    };
    let line =
        |place| Line { digits: number(place), flags: LineFlags::default(), text: vec![0x4E2D; 16] };
    set.tables.lines = (0..count).map(line).collect();
    set
}

/// The first part of its export that a set does not take, with number and failed ID, and the set then.
fn stops(from: &Set, to: Limits) -> (Option<(u8, u8, u8)>, Set) {
    let mut set = Set::fresh(to);
    for part in 1..=PARTS {
        let message = part_bytes(part, from).expect("one of the ten");
        let answer = commit(&message, &mut set, &mut [0; REPLY_ROOM]);
        if answer.number != 0 {
            return (Some((part, answer.number, answer.failed)), set);
        }
    }
    (None, set)
}

/// A line takes 49 bytes of part 1, whose head and replace take 13: 83 lines are 4,080 bytes and 84 are 4,129.
#[test]
fn lines_of_a_vehicle_to_a_handheld() {
    let lengths = [32, 83, 84, 128]
        .map(|count| part_bytes(1, &with_lines(VEHICLE, count)).map(|part| part.len()));
    assert_eq!(lengths, [Some(1_581), Some(4_080), Some(4_129), Some(6_285)]);
    for (count, stopped) in
        [(33, (1, 2, 34)), (83, (1, 2, 34)), (84, (1, 12, 0)), (128, (1, 12, 0))]
    {
        let (told, left) = stops(&with_lines(VEHICLE, count), HANDHELD);
        assert_eq!((told, left), (Some(stopped), Set::fresh(HANDHELD)), "{count}");
    }
    let (told, left) = stops(&with_lines(VEHICLE, 32), HANDHELD);
    assert_eq!((told, left), (None, with_lines(HANDHELD, 32)));
}

/// Part 4 is one setting; the parts before it stay.
#[test]
fn channels_of_a_vehicle_to_a_handheld() {
    for (count, stopped) in [(64, None), (65, Some((4, 2, 1))), (256, Some((4, 2, 1)))] {
        let mut from = with_lines(VEHICLE, 5);
        from.tables.channels = vec![241; count];
        let (told, left) = stops(&from, HANDHELD);
        let mut wanted = with_lines(HANDHELD, 5);
        wanted.tables.channels = vec![241; if count == 64 { 64 } else { 0 }];
        assert_eq!((told, left), (stopped, wanted), "{count}");
    }
}

/// A vehicle with 64 quick texts of 23 units, and of 16 units so many status texts, group slots, group contacts and line slots.
fn with_texts([status, groups, contacts, lines]: [usize; 4]) -> Set {
    let mut set = Set::fresh(VEHICLE);
    let text = vec![0x4E2D; 16];
    let flags = GroupFlags { attribute: 2, ..GroupFlags::default() };
    let group = |place: usize| flags.of(GroupAddress(0x10_0001 + place as u32), text.clone());
    let line = Line { digits: vec![7], flags: LineFlags::default(), text: text.clone() };
    set.tables.quick_texts.fill(Some(vec![0x4E2D; 23]));
    set.tables.status_texts[..status].fill(Some(text.clone()));
    (0..groups).for_each(|place| set.tables.groups[place] = Some(group(place)));
    set.tables.group_contacts = (0..contacts).map(group).collect();
    set.tables.line_slots[..lines].fill(Some(line));
    set
}

/// Texts beyond 4,096 bytes stop at the first setting after which they are more, and the parts before it stay; lines and quick texts alone never do.
#[test]
fn texts_of_a_vehicle_to_a_handheld() {
    for (held, stopped) in [
        ([36, 0, 0, 0], None),
        ([37, 0, 0, 0], Some((5, 2, 1))),
        ([96, 0, 0, 0], Some((5, 2, 1))),
        ([35, 1, 0, 0], None),
        ([35, 2, 0, 0], Some((6, 2, 2))),
        ([20, 16, 0, 0], None),
        ([21, 16, 0, 0], Some((6, 2, 16))),
        // A replace comes before the contacts.
        ([30, 0, 7, 0], Some((8, 2, 8))),
        ([30, 1, 6, 0], Some((8, 2, 7))),
        ([30, 1, 5, 0], None),
        ([30, 1, 5, 1], Some((10, 2, 1))),
        ([30, 1, 0, 16], Some((10, 2, 6))),
    ] {
        let from = with_texts(held);
        let (told, left) = stops(&from, HANDHELD);
        assert_eq!(told, stopped, "{held:?}");
        assert_eq!(left.tables == from.tables, from.tables.text_bytes() <= 4_096, "{held:?}");
    }
    let mut most = with_lines(VEHICLE, 32);
    most.tables.quick_texts.fill(Some(vec![0x4E2D; 23]));
    assert_eq!((most.tables.text_bytes(), stops(&most, HANDHELD).0), (3_968, None));
    most.tables.status_texts[..4].fill(Some(vec![0x4E2D; 16]));
    assert_eq!((most.tables.text_bytes(), stops(&most, HANDHELD).0), (4_096, None));
    most.tables.status_texts[95] = Some(vec![0x4E2D]);
    assert_eq!(stops(&most, HANDHELD).0, Some((5, 2, 1)));
    // What is wrong first counts, and 12 comes before 2.
    most.tables.lines = with_lines(VEHICLE, 33).tables.lines;
    assert_eq!(stops(&most, HANDHELD).0, Some((1, 2, 34)));
    most.tables.lines = with_lines(VEHICLE, 84).tables.lines;
    assert_eq!(stops(&most, HANDHELD).0, Some((1, 12, 0)));
    assert_eq!(stops(&most, VEHICLE), (None, most));
}

#[test]
fn a_handheld_fits_every_vehicle() {
    let mut from = with_lines(HANDHELD, 32);
    from.tables.channels = vec![640; 64];
    let (told, left) = stops(&from, VEHICLE);
    assert_eq!((told, left), (None, Set { limits: VEHICLE, ..from }));
}
