//! The counts among a store's bytes, the keys of its lists and the line slots: where they stand in the first form, and that a false count or one key twice
//! makes bytes no store, in either form.

use super::*;
use crate::inputs::pokes::{
    fit_texts, order_lines, poke_count, poke_line_slot, poke_list, poke_order, poke_texts,
    set_count,
};
use crate::inputs::random::Random;
use crate::inputs::Inputs;
use crate::reference::commit::{judge_and_commit, REPLY_ROOM};
use crate::reference::limits::{HANDHELD, VEHICLE};
use crate::reference::plan::{GroupAddress, IndividualAddress};
use crate::reference::settings::{GroupFlags, IndividualFlags, LineFlags};

/// A set with so many group contacts, individual contacts, channels and lines; no two of a list have one key.
pub(super) fn held(limits: Limits, [groups, individuals, channels, lines]: [u16; 4]) -> Set {
    let mut set = Set::fresh(limits);
    let address = |place: u16| 0x10_0001 + u32::from(place);
    let flags = GroupFlags { attribute: 1, ..GroupFlags::default() };
    let group = |place| flags.of(GroupAddress(address(place)), vec![0x4E2D]);
    let individual =
        |place| IndividualFlags::default().of(IndividualAddress(address(place)), vec![0x4E2D]);
    let line = |place: u16| Line {
        digits: [place / 100, place / 10 % 10, place % 10].map(|digit| digit as u8).to_vec(),
        flags: LineFlags::default(),
        text: vec![0x4E2D],
    };
    set.tables.group_contacts = (0..groups).map(group).collect();
    set.tables.individual_contacts = (0..individuals).map(individual).collect();
    set.tables.channels = (0..channels).map(|place| 241 + place).collect();
    set.tables.lines = (0..lines).map(line).collect();
    set
}

/// The rooms, and what `held` puts there.
pub(super) const FULL: [u16; 4] = [64, 64, 64, 32];
const FULL_VEHICLE: [u16; 4] = [64, 64, 256, 128];

/// One of each form.
const FULLS: [(Limits, [u16; 4]); 2] = [(HANDHELD, FULL), (VEHICLE, FULL_VEHICLE)];

/// A count, then a group's flags, address and text, and at the region's end the last one's.
#[test]
fn counts_of_a_vehicle() {
    let bytes = bytes(&held(VEHICLE, FULL_VEHICLE));
    assert!(is_store(&bytes, VEHICLE));
    assert_eq!(bytes[8_118..8_126], [0, 64, 64, 0x10, 0, 1, 0x4E, 0x2D]);
    assert_eq!(bytes[8_120 + 63 * 36..][..6], [64, 0x10, 0, 64, 0x4E, 0x2D]);
    assert_eq!(bytes[10_424..10_432], [0, 64, 0, 0x10, 0, 1, 0x4E, 0x2D]);
    assert_eq!(bytes[10_426 + 63 * 36..][..6], [0, 0x10, 0, 64, 0x4E, 0x2D]);
    // 256 channels, of which the last is 496; 128 lines, of which the first is PSTN 000.
    assert_eq!(bytes[12_730..12_734], [1, 0, 0, 241]);
    assert_eq!(bytes[13_242..13_252], [1, 240, 0, 128, 0, 0, 1, 1, 1, 0]);
    assert_eq!(bytes[13_246 + 127 * 52..][..5], [0, 0, 2, 3, 8]);
    assert_eq!(bytes[13_246 + 127 * 52 + 20..][..2], [0x4E, 0x2D]);
    // The order of the lines, which stand as their digits go, and then nothing.
    assert_eq!(bytes[19_901..19_905], [0, 1, 2, 3]);
    assert_eq!(bytes[20_028..20_031], [127, 128, 0]);
    assert_eq!(bytes.len(), 20_030 + 29_122);
}

/// The numbers of docs/STORE.md: first bytes and widths of the tables with texts, of the channels, and the ends.
#[test]
fn regions_follow_each_other() {
    let numbers = |limits: Limits| {
        let regions = limits.regions();
        let tables = regions.with_texts().map(|slots| (slots.at, slots.width, slots.places));
        (tables, regions.channels.at, regions.order.start, regions.area.start, regions.spare())
    };
    let first = [
        (22, 46, 64),
        (2_966, 33, 96),
        (6_134, 36, 16),
        (6_710, 36, 16),
        (7_286, 52, 16),
        (8_120, 36, 64),
        (10_426, 36, 64),
        (13_246, 52, 128),
    ];
    assert_eq!(numbers(VEHICLE), (first, 12_732, 19_902, 20_030, 20_030));
    let second = [
        (22, 1, 64),
        (86, 2, 96),
        (278, 5, 16),
        (358, 5, 16),
        (438, 21, 16),
        (776, 5, 64),
        (1_098, 5, 64),
        (1_550, 21, 32),
    ];
    assert_eq!(numbers(HANDHELD), (second, 1_420, 2_222, 2_254, 6_350));
}

#[test]
fn a_fresh_store_counts_nothing() {
    for (limits, own) in [(HANDHELD, 24_576), (VEHICLE, 49_152)] {
        let fresh = bytes(&Set::fresh(limits));
        assert!(is_store(&fresh, limits) && fresh[11] == 16);
        assert!(
            is_empty(&fresh[..11]) && is_empty(&fresh[12..]),
            "the key calls the current place"
        );
        // The size before A4, those around, and the other kind's.
        for size in [0, 12_288, 24_575, 24_576, 24_577, 49_151, 49_152, 49_153] {
            let mut other = fresh.clone();
            other.resize(size, 0);
            assert_eq!(is_store(&other, limits), size == own, "{size}");
        }
    }
}

#[test]
fn line_slots_stand_by_index() {
    let mut set = Set::fresh(VEHICLE);
    let flags = LineFlags { encryption: true, emergency: true, priority: 3, pabx: true };
    let line = Line { digits: vec![0, 9], flags, text: vec![0x4E2D] };
    set.tables.line_slots[0] = Some(line.clone());
    set.tables.line_slots[15] = Some(line);
    let bytes = bytes(&set);
    // One line may stand in two slots.
    assert!(is_store(&bytes, VEHICLE));
    for at in [7_286, 7_286 + 15 * 52] {
        assert_eq!(bytes[at..at + 5], [15, 1, 1, 10, 0]);
        assert_eq!(bytes[at + 20..at + 24], [0x4E, 0x2D, 0, 0]);
    }
    assert!(is_empty(&bytes[7_286 + 52..7_286 + 15 * 52]));
    let changed = |place: usize, byte: u8| {
        let mut poked = bytes.clone();
        poked[7_286 + 15 * 52 + place] = byte;
        is_store(&poked, VEHICLE)
    };
    assert!(changed(0, 0) && !changed(0, 16), "flags");
    assert!(changed(1, 0) && !changed(1, 2), "IDtype");
    assert!(!changed(2, 0) && !changed(2, 11) && changed(2, 10), "the first digit");
    assert!(changed(3, 0) && changed(4, 1) && !changed(5, 1), "the number's end");
    assert!(changed(20, 0) && changed(22, 1) && !changed(24, 1), "the text");
}

/// Counts near the right one and near the room, with each of some high bytes, and such as overflow 16 bits when multiplied.
fn other_counts(right: u16) -> impl Iterator<Item = u16> {
    let high = [1, 2, 32, 64, 127, 128, 254].map(|high| right + (high << 8));
    let far = [right.swap_bytes(), right + (1 << 14), right + (1 << 15), u16::MAX];
    (0..=258).chain(high).chain(far).filter(move |&count| count != right)
}

/// Of empty lists, full ones and others, and each whatever the others are.
#[test]
fn a_false_count_is_no_store() {
    for (limits, full) in FULLS {
        let [groups, individuals, channels, lines] = full;
        let (one, other) = ([0, individuals, 0, lines], [groups, 0, channels, 0]);
        for entries in [[0; 4], full, one, other, [1; 4], full.map(|most| most - 1), [7, 40, 9, 7]]
        {
            false_counts(limits, entries);
        }
    }
}

fn false_counts(limits: Limits, entries: [u16; 4]) {
    let bytes = bytes(&held(limits, entries));
    assert!(is_store(&bytes, limits), "{entries:?}");
    for (list, right) in limits.regions().lists().into_iter().zip(entries) {
        assert_eq!(list.count(&bytes), right);
        for count in other_counts(right) {
            let mut poked = bytes.clone();
            set_count(list, &mut poked, count);
            assert!(!is_store(&poked, limits), "{entries:?}: {count}");
        }
    }
}

/// A count that is right for its list, whose end has moved: of lists that are neither empty nor full. Of lines their order goes along, and of all but
/// channels a shared area.
#[test]
fn a_list_and_its_count_change_together() {
    for (limits, _) in FULLS {
        let [few, more] = [[7, 8, 40, 7], [8, 9, 41, 8]].map(|some| bytes(&held(limits, some)));
        for list in limits.regions().lists() {
            change_together(limits, list, &few, &more);
            change_together(limits, list, &more, &few);
        }
    }
}

fn change_together(limits: Limits, list: Slots, from: &[u8], to: &[u8]) {
    let (mut poked, regions) = (from.to_vec(), limits.regions());
    poked[list.at..list.end()].copy_from_slice(list.of(to));
    fit_texts(limits, &mut poked);
    assert!(!is_store(&poked, limits), "the list without its count");
    set_count(list, &mut poked, list.count(to));
    if list == regions.lines {
        assert!(!is_store(&poked, limits), "the lines without their order");
        poked[regions.order.clone()].copy_from_slice(&to[regions.order.clone()]);
    }
    assert!(is_store(&poked, limits), "the list and its count");
    poked[regions.area.clone()].copy_from_slice(&from[regions.area.clone()]);
    let has_no_area = limits == VEHICLE || list == regions.channels;
    assert_eq!(is_store(&poked, limits), has_no_area, "the list without its texts");
}

/// Two contacts are told apart by each of the three bytes of the address, and by no other byte.
#[test]
fn contacts_differ_in_their_address() {
    for (limits, _) in FULLS {
        let (bytes, regions) = (bytes(&held(limits, [2, 2, 0, 0])), limits.regions());
        for list in [regions.group_contacts, regions.individual_contacts] {
            let mut equal = bytes.clone();
            equal.copy_within(list.slot(0)..list.slot(1), list.slot(1));
            assert!(!is_store(&equal, limits), "one contact twice");
            let changed = |place: usize, byte: u8| {
                let mut poked = equal.clone();
                poked[list.slot(1) + place] = byte;
                fit_texts(limits, &mut poked);
                is_store(&poked, limits)
            };
            let flags = if list == regions.group_contacts { 0xFF } else { 15 };
            assert!(!changed(0, flags), "other flags");
            // Another unit, or another number of units.
            assert!(!changed(4, 0x0F), "another text");
            assert!(changed(1, 0x11) && changed(1, 0x90), "the high byte");
            assert!(changed(2, 1) && changed(2, 0x80), "the middle byte");
            assert!(changed(3, 2) && changed(3, 0xFF), "the low byte");
            assert!(!changed(1, 0x0F) && !changed(3, 0), "no address");
        }
    }
}

/// The flags of either kind are none of the other's; one address may stand in both lists and in the slots.
#[test]
fn kinds_of_contacts() {
    for (limits, _) in FULLS {
        let (bytes, regions) = (bytes(&held(limits, [3, 3, 0, 0])), limits.regions());
        let flags = |list: Slots, byte: u8| {
            let mut poked = bytes.clone();
            poked[list.slot(1)] = byte;
            is_store(&poked, limits)
        };
        for byte in 0..=255 {
            assert_eq!(flags(regions.group_contacts, byte), byte >= 64, "{byte}");
            assert_eq!(flags(regions.individual_contacts, byte), byte < 16, "{byte}");
        }
        in_slots_too(limits, &bytes);
        // A gap, with the count that the entries would have.
        let (list, mut gap) = (regions.group_contacts, bytes.clone());
        gap[list.slot(1)..list.slot(2)].fill(0);
        fit_texts(limits, &mut gap);
        assert!(!is_store(&gap, limits));
        set_count(list, &mut gap, 2);
        assert!(!is_store(&gap, limits));
    }
}

/// The first contact of each kind, also in two group slots and in one individual slot.
fn in_slots_too(limits: Limits, bytes: &[u8]) {
    let (regions, mut slots) = (limits.regions(), bytes.to_vec());
    let mut copy = |from: Slots, to: usize| slots.copy_within(from.slot(0)..from.slot(1), to);
    copy(regions.group_contacts, regions.groups.slot(0));
    copy(regions.group_contacts, regions.groups.slot(1));
    copy(regions.individual_contacts, regions.individuals.slot(0));
    fit_texts(limits, &mut slots);
    assert!(is_store(&slots, limits));
}

/// Two lines are told apart by each of the 19 bytes of IDtype and digits, and by no other byte. Their order follows.
#[test]
fn lines_differ_in_their_key() {
    let line = |text: u16| Line {
        digits: vec![7; 18],
        flags: LineFlags { pabx: true, ..LineFlags::default() },
        text: vec![text],
    };
    for (limits, _) in FULLS {
        let mut set = Set::fresh(limits);
        set.tables.lines = vec![line(0x41), line(0x42)];
        let equal = bytes(&set);
        assert!(!is_store(&equal, limits), "two texts, but one key");
        let second = limits.regions().lines.slot(1);
        let changed = |place: usize, byte: u8| {
            let mut poked = equal.clone();
            poked[second + place] = byte;
            order_lines(limits, &mut poked);
            is_store(&poked, limits)
        };
        assert!(!changed(0, 15), "other flags, but one key");
        assert!(changed(1, 0), "the other IDtype");
        assert!(!changed(1, 2), "no IDtype");
        for place in 2..20 {
            assert!(changed(place, 1), "digit {place}");
        }
        assert!(changed(19, 0), "a shorter number");
    }
}

/// What messages make is a store; with another count or order it is none, and with another list only where that has its count and order.
#[test]
fn poked_stores() {
    for (limits, _) in FULLS {
        let mut random = Random::new(11);
        let (mut stores, mut refused) = (0, 0);
        for seed in 0..20 {
            let (mut inputs, mut set) = (Inputs::new(seed, limits), Set::fresh(limits));
            for _ in 0..15 {
                judge_and_commit(&inputs.message(), &mut set, &mut [0; REPLY_ROOM]);
                let still = still_stores(&mut random, &set).into_iter().filter(|&still| still);
                let count = still.count();
                (stores, refused) = (stores + count, refused + 3 - count);
            }
        }
        assert!(stores > 100 && refused > 100, "{stores} still a store, {refused} refused");
    }
}

/// Whether a set's store with another list is still one, with another line slot, and with other texts.
fn still_stores(random: &mut Random, set: &Set) -> [bool; 3] {
    let (limits, bytes) = (set.limits, bytes(set));
    assert!(is_store(&bytes, limits));
    let mut ordered = bytes.clone();
    order_lines(limits, &mut ordered);
    assert!(ordered == bytes, "the order is the one that the lines have");
    let mut poked = |poke: fn(&mut Random, Limits, &mut [u8])| {
        let mut poked = bytes.clone();
        poke(random, limits, &mut poked);
        (is_store(&poked, limits), poked == bytes)
    };
    for (is_store, is_same) in [poked(poke_count), poked(poke_order)] {
        assert_eq!(is_store, is_same);
    }
    [poked(poke_list).0, poked(poke_line_slot).0, poked(poke_texts).0]
}
