//! Updates where the texts fill the area of a hand-held: what finds room on the way, and what does not though the end fits.

use super::*;
use crate::reference::by_hand::{bytes, number, request_of};
use crate::reference::limits::{Limits, BOTH, HANDHELD, VEHICLE};
use crate::reference::message::request;
use crate::reference::plan::{GroupAddress, IndividualAddress};
use crate::reference::settings::{GroupFlags, IndividualFlags, Line, LineFlags};
use crate::reference::texts::Text;

fn text(units: usize) -> Text {
    vec![0x8B66; units]
}

/// Two texts of 14 units together in the first two rows of a part's table, and so many besides that all are 4,096 bytes.
fn full(limits: Limits, part: u8, units: [usize; 2]) -> Set {
    let mut set = Set::fresh(limits);
    let tables = &mut set.tables;
    tables.quick_texts[2..].fill(Some(text(23)));
    tables.status_texts[2..40].fill(Some(text(16)));
    let flags = GroupFlags { attribute: 2, ..GroupFlags::default() };
    for (row, units) in units.into_iter().enumerate() {
        let (text, address) = (text(units), 0x10_0001 + row as u32);
        let group = || flags.of(GroupAddress(address), text.clone());
        let individual = || IndividualFlags::default().of(IndividualAddress(address), text.clone());
        let line =
            || Line { digits: vec![row as u8], flags: LineFlags::default(), text: text.clone() };
        match part {
            1 => tables.lines.push(line()),
            3 => tables.quick_texts[row] = Some(text),
            5 => tables.status_texts[row] = Some(text),
            6 => tables.groups[row] = Some(group()),
            7 => tables.individuals[row] = Some(individual()),
            8 => tables.group_contacts.push(group()),
            9 => tables.individual_contacts.push(individual()),
            _ => tables.line_slots[row] = Some(line()),
        }
    }
    assert_eq!(tables.text_bytes(), 4_096);
    set
}

/// What the first says to the proposal, and the check with it.
fn told(first: &Set, second: &Set) -> (u8, u8) {
    let mut buffer = vec![0; first.limits.message];
    let length = propose(Some(first), Some(second), &mut buffer).expect("one part differs");
    let told = number(&mut first.clone(), &buffer[..length]);
    let says = check_update(Some(first), Some(second), &buffer[..length]);
    assert_eq!(says, Ok(told.0 == 0), "it is an update where it is taken");
    told
}

/// Slot 0 grows before slot 1 shrinks: the area is passed after the first setting. The other way round it is not.
#[test]
fn slots_that_grow_first() {
    for part in [6, 7, 10] {
        let sets = |limits| [[1, 13], [13, 1]].map(|units| full(limits, part, units));
        let [short, long] = sets(HANDHELD);
        assert_eq!(told(&short, &long), (2, 1), "part {part}");
        assert_eq!(told(&long, &short), (0, 0), "part {part}");
        let [short, long] = sets(VEHICLE);
        assert_eq!([told(&short, &long), told(&long, &short)], [(0, 0); 2], "part {part}");
    }
}

/// They are emptied first, or replaced by one setting.
#[test]
fn tables_that_are_emptied_first() {
    for limits in BOTH {
        for part in [1, 3, 5, 8, 9] {
            let [one, other] = [[1, 13], [13, 1]].map(|units| full(limits, part, units));
            assert_eq!([told(&one, &other), told(&other, &one)], [(0, 0); 2], "part {part}");
        }
    }
}

/// Tables without texts ask for no room in the area.
#[test]
fn tables_without_texts() {
    for limits in BOTH {
        let first = full(limits, 1, [7, 7]);
        for setting in ["CB 00 06 68 10 00 01", "CE 00 06 40 01 0F 1F"] {
            let mut second = first.clone();
            assert_eq!(number(&mut second, &request_of(&[setting])), (0, 0));
            assert_eq!([told(&first, &second), told(&second, &first)], [(0, 0); 2]);
        }
    }
}

/// Of one request: what frees the room has to come first, on a hand-held.
#[test]
fn the_order_of_settings() {
    let delete = bytes("CC 00 06 81 02 00 00");
    let add = [bytes("D0 00 27 40 01 7E"), bytes("8B 66").repeat(16), bytes("00 00")].concat();
    for limits in BOTH {
        let first = full(limits, 1, [7, 7]);
        let mut second = first.clone();
        second.tables.quick_texts[2] = None;
        second.tables.status_texts[0x7E - 32] = Some(text(16));
        let says = |settings: [&Vec<u8>; 2]| {
            let message = request(&settings.map(Clone::clone));
            check_update(Some(&first), Some(&second), &message)
        };
        assert_eq!(says([&delete, &add]), Ok(true));
        assert_eq!(says([&add, &delete]), Ok(limits == VEHICLE));
    }
}
