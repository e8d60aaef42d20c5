//! Request A7 by hand: the order after each operation on line contacts, and who is found.

use super::*;
use crate::inputs::callers::Caller;
use crate::inputs::Inputs;
use crate::reference::by_hand::{number_of, scratch, shown, stored, taken};
use crate::reference::commit::{judge_and_commit, REPLY_ROOM};
use crate::reference::limits::HANDHELD;
use crate::reference::screen::Row;

const PSTN: u32 = 0;
const PABX: u32 = 1;

/// PSTN 2345, PABX 2345 with the name A, PSTN 23 and PSTN 3, in this order.
const FOUR: [&str; 4] = [
    "CA 00 09 40 01 23 45 FF 00 00",
    "CA 00 0B 42 01 23 45 FF 00 41 00 00",
    "CA 00 08 40 01 23 FF 00 00",
    "CA 00 07 40 01 3F 00 00",
];

fn four() -> Set {
    taken(&FOUR)
}

fn order_of(set: &Set) -> Vec<usize> {
    order(&set.tables.lines)
}

/// The row of a number as it is read out.
fn row(set: &Set, id_type: u32, number: &str) -> Option<u32> {
    let digits: Vec<u8> = number.bytes().map(|digit| digit - b'0').collect();
    line_of(id_type, &digits, true, set).expect("the number is one")
}

#[test]
fn the_order_of_four_lines() {
    assert_eq!(order_of(&four()), [2, 0, 3, 1]);
    assert!(order_of(&Set::fresh(HANDHELD)).is_empty());
}

/// The order goes by the keys, wherever the lines stand.
#[test]
fn the_order_of_four_lines_as_they_come() {
    for (places, wanted) in [
        ([2, 0, 3, 1], [0, 1, 2, 3]),
        ([1, 3, 0, 2], [3, 2, 1, 0]),
        ([3, 2, 1, 0], [1, 3, 0, 2]),
        ([0, 2, 1, 3], [1, 0, 3, 2]),
    ] {
        let set = taken(&places.map(|place| FOUR[place]));
        assert_eq!(order_of(&set), wanted, "{places:?}");
    }
}

/// 0 before 00 before 01 before 1, then 10 before 9; and all of PSTN before PABX 0.
#[test]
fn digits_are_compared_from_the_left() {
    let set = taken(&[
        "CA 00 07 42 01 0F 00 00",
        "CA 00 07 40 01 9F 00 00",
        "CA 00 08 40 01 10 FF 00 00",
        "CA 00 07 40 01 1F 00 00",
        "CA 00 08 40 01 01 FF 00 00",
        "CA 00 08 40 01 00 FF 00 00",
        "CA 00 07 40 01 0F 00 00",
    ]);
    assert_eq!(order_of(&set), [6, 5, 4, 3, 2, 1, 0]);
}

#[test]
fn each_line_is_found_at_its_position() {
    let set = four();
    let rows = [(PSTN, "2345"), (PABX, "2345"), (PSTN, "23"), (PSTN, "3")];
    assert_eq!(rows.map(|(id_type, number)| row(&set, id_type, number)), [0, 1, 2, 3].map(Some));
}

#[test]
fn no_row_has_that_number() {
    let set = four();
    for number in ["234", "23456", "2", "33", "02345", "23450", "2346", "5432", "0", "999"] {
        assert_eq!((row(&set, PSTN, number), row(&set, PABX, number)), (None, None), "{number}");
    }
    assert_eq!((row(&set, PABX, "23"), row(&set, PABX, "3")), (None, None));
    assert_eq!(row(&Set::fresh(HANDHELD), PSTN, "3"), None);
}

/// Also such as are 0 or 1 in their low byte, half or bit.
#[test]
fn another_idtype_is_no_lines() {
    let set = four();
    for id_type in [2, 3, 255, 0x100, 0x101, 0x1_0000, 0x1_0001, 0x8000_0000, u32::MAX] {
        for number in ["2345", "23", "3"] {
            assert_eq!(row(&set, id_type, number), None, "{id_type:X} {number}");
        }
    }
}

#[test]
fn no_number() {
    let set = four();
    for id_type in [PSTN, PABX, 2, u32::MAX] {
        for digits in [
            &[][..],
            &[2; 19],
            &[0; 300],
            &[10],
            &[2, 3, 10],
            &[10, 3],
            &[2, 3, 4, 15],
            &[2, 255, 4, 5],
            b"2345",
        ] {
            assert_eq!(line_of(id_type, digits, true, &set), Err(20), "{id_type} {digits:?}");
        }
    }
}

/// The store comes first, and a refusal has no row.
#[test]
fn no_store() {
    for digits in [&[2, 3, 4, 5][..], &[9], &[], &[2; 19], &[10]] {
        assert_eq!(line_of(PSTN, digits, false, &four()), Err(11), "{digits:?}");
        assert_eq!(line_of(2, digits, false, &Set::fresh(HANDHELD)), Err(11), "{digits:?}");
    }
}

/// As many as a line may have, and one fewer.
#[test]
fn eighteen_digits() {
    let mut set = taken(&["CA 00 10 42 01 99 99 99 99 99 99 99 99 99 FF 00 00"]);
    let (most, fewer) = ("9".repeat(18), "9".repeat(17));
    assert_eq!((row(&set, PABX, &most), row(&set, PSTN, &most)), (Some(0), None));
    assert_eq!(row(&set, PABX, &fewer), None);
    let add = "CA 00 0F 42 01 99 99 99 99 99 99 99 99 9F 00 00";
    assert_eq!(number_of(&mut set, &[add]), (0, 0));
    assert_eq!((row(&set, PABX, &most), row(&set, PABX, &fewer)), (Some(0), Some(1)));
    assert_eq!(order_of(&set), [1, 0]);
    assert_eq!(line_of(PABX, &[9; 19], true, &set), Err(20));
}

#[test]
fn after_a_delete() {
    let mut set = four();
    assert_eq!(number_of(&mut set, &["CA 00 09 80 01 23 45 FF 00 00"]), (0, 0));
    assert_eq!(order_of(&set), [1, 2, 0]);
    assert_eq!((row(&set, PSTN, "2345"), row(&set, PABX, "2345")), (None, Some(0)));
    assert_eq!((row(&set, PSTN, "23"), row(&set, PSTN, "3")), (Some(1), Some(2)));
    // It comes back at the end; one of the middle and the last go.
    assert_eq!(number_of(&mut set, &[FOUR[0]]), (0, 0));
    assert_eq!((order_of(&set), row(&set, PSTN, "2345")), (vec![1, 3, 2, 0], Some(3)));
    let deletes = ["CA 00 08 80 01 23 FF 00 00", "CA 00 09 80 01 23 45 FF 00 00"];
    assert_eq!(number_of(&mut set, &deletes), (0, 0));
    assert_eq!((order_of(&set), row(&set, PSTN, "3")), (vec![1, 0], Some(1)));
    // What is not there.
    assert_eq!(number_of(&mut set, &["CA 00 07 82 01 3F 00 00"]), (0, 0));
    assert_eq!((order_of(&set), row(&set, PSTN, "3")), (vec![1, 0], Some(1)));
}

/// 3, 2345 and 23 of PABX, where the first comes once more; then PSTN 3.
#[test]
fn after_a_replace() {
    let mut set = four();
    let replace = "CA 00 15 C2 04 3F 00 00 23 45 FF 00 00 23 FF 00 00 3F 00 42 00 00";
    assert_eq!(number_of(&mut set, &[replace]), (0, 0));
    assert_eq!(order_of(&set), [2, 1, 0]);
    let rows = ["3", "2345", "23"].map(|number| row(&set, PABX, number));
    assert_eq!(rows, [0, 1, 2].map(Some));
    assert_eq!((row(&set, PSTN, "2345"), row(&set, PSTN, "3")), (None, None));
    assert_eq!(shown(&set, Row::Line(0)), stored("B"));
    assert_eq!(number_of(&mut set, &[FOUR[3]]), (0, 0));
    assert_eq!((order_of(&set), row(&set, PSTN, "3")), (vec![3, 2, 1, 0], Some(3)));
}

#[test]
fn after_clearing() {
    for clear in ["CA 00 04 C0 00", "CA 00 04 C2 00"] {
        let mut set = four();
        assert_eq!(number_of(&mut set, &[clear]), (0, 0));
        assert!(order_of(&set).is_empty());
        for number in ["2345", "23", "3"] {
            assert_eq!((row(&set, PSTN, number), row(&set, PABX, number)), (None, None));
        }
        assert_eq!(line_of(PSTN, &[], true, &set), Err(20));
        assert_eq!(number_of(&mut set, &[FOUR[1], FOUR[2]]), (0, 0));
        assert_eq!((order_of(&set), row(&set, PSTN, "23")), (vec![1, 0], Some(1)));
    }
}

/// A known key keeps its place in both orders, and a refused request leaves all as it was.
#[test]
fn after_an_overwriting_and_a_refusal() {
    let mut set = four();
    assert_eq!(number_of(&mut set, &["CA 00 0A 7C 01 23 FF 00 42 00 00"]), (0, 0));
    assert_eq!((order_of(&set), row(&set, PSTN, "23")), (vec![2, 0, 3, 1], Some(2)));
    assert_eq!(number_of(&mut set, &["CA 00 04 C0 00", "CF 00 05 00 09 00"]), (4, 2));
    assert_eq!((order_of(&set), row(&set, PABX, "2345")), (vec![2, 0, 3, 1], Some(1)));
}

/// A line's name, or its digits where it has none.
#[test]
fn the_screen_shows_the_caller() {
    let set = four();
    let name = |id_type, number| {
        let row = row(&set, id_type, number).expect("a line has the number");
        shown(&set, Row::Line(row as usize))
    };
    assert_eq!((name(PABX, "2345"), name(PSTN, "2345")), (stored("A"), scratch("2345")));
    assert_eq!((name(PSTN, "23"), name(PSTN, "3")), (scratch("23"), scratch("3")));
}

#[test]
fn line_slots_are_not_looked_up() {
    let mut set = taken(&["D3 00 07 40 00 3F 00 00", "D3 00 09 42 03 23 45 FF 00 00"]);
    assert_eq!((row(&set, PSTN, "3"), row(&set, PABX, "2345")), (None, None));
    assert!(order_of(&set).is_empty());
    assert_eq!(number_of(&mut set, &[FOUR[1]]), (0, 0));
    assert_eq!((row(&set, PSTN, "3"), row(&set, PABX, "2345")), (None, Some(0)));
    assert_eq!(order_of(&set), [0]);
}

/// By the words of the request: the IDtype, then the first digit that differs, and where there is none the shorter one first.
fn before(one: &Line, other: &Line) -> bool {
    if one.flags.pabx != other.flags.pabx {
        return other.flags.pabx;
    }
    let mut digits = one.digits.iter().zip(&other.digits);
    let differ = digits.find(|(one, other)| one != other);
    differ.map_or(one.digits.len() < other.digits.len(), |(one, other)| one < other)
}

/// Every position once, and each line before the next.
fn assert_ordered(lines: &[Line]) {
    let order = order(lines);
    let mut positions = order.clone();
    positions.sort_unstable();
    assert!(positions.into_iter().eq(0..lines.len()));
    assert!(order.is_sorted_by(|&one, &next| before(&lines[one], &lines[next])));
}

/// Where the order has the key, halving it each time: what it is kept for.
fn by_order(lines: &[Line], id_type: u32, digits: &[u8]) -> Option<u32> {
    let order = order(lines);
    let key = (id_type == PABX, digits);
    let place = order.binary_search_by(|&position| lines[position].key().cmp(&key)).ok()?;
    (id_type <= PABX).then_some(order[place] as u32)
}

#[test]
fn callers_of_many_sets() {
    let (mut found, mut absent, mut refused, mut full) = (0, 0, 0, 0);
    for seed in 0..50 {
        let mut inputs = Inputs::new(seed, HANDHELD);
        let mut set = Set::fresh(HANDHELD);
        for _ in 0..30 {
            judge_and_commit(&inputs.message(), &mut set, &mut [0; REPLY_ROOM]);
            let lines = &set.tables.lines;
            assert_ordered(lines);
            full += usize::from(lines.len() == HANDHELD.lines);
            for _ in 0..10 {
                let Caller { id_type, digits } = inputs.caller();
                let Ok(row) = line_of(id_type, &digits, true, &set) else {
                    assert!(
                        digits.is_empty() || digits.len() > 18 || digits.iter().any(|&d| d > 9)
                    );
                    refused += 1;
                    continue;
                };
                assert_eq!(row, by_order(lines, id_type, &digits), "{id_type} {digits:?}");
                *if row.is_some() { &mut found } else { &mut absent } += 1;
            }
        }
    }
    println!("{found} found, {absent} absent, {refused} refused; {full} full");
    assert!(found > 3_000 && absent > 3_000 && refused > 1_000 && full > 100);
}
