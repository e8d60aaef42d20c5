//! What goes from one set to another, and what the screen shows, when texts share one room.

use super::*;
use crate::reference::export::{part_bytes, PARTS};
use crate::reference::limits::BOTH;

/// The first part of an export that a set does not take, with number and failed ID.
fn stops(from: &Set, to: &mut Set) -> Option<(u8, u8, u8)> {
    (1..=PARTS).find_map(|part| {
        let message = part_bytes(part, from).expect("one of the ten");
        let (said, failed) = number(to, &message);
        (said != 0).then_some((part, said, failed))
    })
}

/// A full area on a fresh set: the same bytes. On a used one other tables' texts take the room.
#[test]
fn a_full_area_restored() {
    let from = full();
    let mut fresh = Set::fresh(HANDHELD);
    assert_eq!(stops(&from, &mut fresh), None);
    assert!(layout::bytes(&fresh) == layout::bytes(&from));
    // In itself, and where no other table has a text, there is room.
    assert_eq!(stops(&from, &mut from.clone()), None);
    // A unit in a table whose part comes later, or in a status text: quick texts and status texts come before it.
    for setting in &in_each_table(1)[2..7] {
        let mut used = Set::fresh(HANDHELD);
        assert_eq!(told_one(&mut used, setting), (0, 0));
        assert_eq!(stops(&from, &mut used), Some((5, 2, 1)), "{setting:?}");
    }
    for setting in [quick(Add, &[(9, 1)]), status(Add, &[(127, 1)]), lines(Add, &[(31, 1)])] {
        let mut used = Set::fresh(HANDHELD);
        assert_eq!(told(&mut used, &[setting]), (0, 0));
        assert_eq!(stops(&from, &mut used), None);
        assert!(layout::bytes(&used) == layout::bytes(&from));
    }
    // Whatever a vehicle holds.
    let mut used = Set::fresh(VEHICLE);
    assert_eq!(told(&mut used, &in_each_table(16)), (0, 0));
    assert_eq!(stops(&from, &mut used), None);
    assert_eq!(used.tables, from.tables);
}

/// Slots are restored one by one: those that are still to come count until they are overwritten.
#[test]
fn slots_of_a_used_set() {
    let texts = |slots: std::ops::Range<u8>| slots.map(|index| group(index, 16)).collect();
    let (front, back): (Vec<Setting>, Vec<Setting>) = (texts(0..8), texts(8..16));
    let rest: Vec<_> = (32..32 + 28).map(|code| (code, 16)).collect();
    let [mut from, mut to] = [&front, &back].map(|groups| {
        let mut set = holding(HANDHELD, 0);
        assert_eq!(told(&mut set, &[status(Replace, &rest)]), (0, 0));
        assert_eq!(told(&mut set, groups), (0, 0));
        assert_eq!(set.tables.text_bytes(), 4_096);
        set
    });
    // The first slot comes while those of the other set are still there; backwards they are deleted first.
    assert_eq!(stops(&from, &mut to.clone()), Some((6, 2, 1)));
    assert_eq!(stops(&to, &mut from), None);
    assert_eq!(stops(&Set::fresh(HANDHELD), &mut to), None);
    assert_eq!(to, Set::fresh(HANDHELD));
}

/// The screen shows the same before and after other texts move.
#[test]
fn rows_stay() {
    let mut set = full();
    assert_eq!(told(&mut set, &[quick(Delete, &[(0, 0), (1, 0)])]), (0, 0));
    let own = Line { digits: vec![4], flags: LineFlags::default(), text: vec![0x41, 0x42] };
    let add = Setting::LineSlot { index: 3, slot: Some(own.clone()) };
    assert_eq!(told(&mut set, &[add, lines(Add, &[(5, 0)])]), (0, 0));
    let rows =
        |set: &Set| [Row::LineSlot(3), Row::Line(0), Row::Quick(2)].map(|row| shown(set, row));
    let before = rows(&set);
    assert_eq!(before[0], Shown::Stored(own.text));
    assert_eq!(before[1], Shown::Scratch(vec![0x30, 0x35]));
    let many: Vec<_> = (3..60).map(|index| (index, 0)).collect();
    assert_eq!(told(&mut set, &[quick(Delete, &many)]), (0, 0));
    assert_eq!(rows(&set), before);
    assert_eq!(told(&mut set, &[quick(Add, &[(0, 23)]), group(0, 16)]), (0, 0));
    assert_eq!(rows(&set), before);
    assert_eq!(shown(&set, Row::Group(0)), Shown::Nothing, "a background group");
}

/// A vehicle has no sum: every place with the longest text.
#[test]
fn a_vehicle_takes_all() {
    for limits in BOTH {
        let mut set = holding(limits, 36);
        let quarter: Vec<_> = (68..128).map(|code| (code, 16)).collect();
        let said = told(&mut set, &[status(Add, &quarter)]);
        assert_eq!(said, if limits == VEHICLE { (0, 0) } else { (2, 1) });
        for index in 0..16 {
            let slots = [group(index, 16), individual(index, 16), line_slot(index, 16)];
            assert_eq!(told(&mut set, &slots), said);
        }
        let bytes = layout::bytes(&set);
        assert!(layout::is_store(&bytes, limits));
        let sum = if limits == VEHICLE { 64 * 46 + 96 * 32 + 48 * 32 } else { 4_096 };
        assert_eq!(set.tables.text_bytes(), sum);
    }
}
