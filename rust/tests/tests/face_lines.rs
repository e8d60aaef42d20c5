//! Two lines with one number: the identity of a line is its IDtype together with its digits.

use otap::{Part, Refusal, Set, Slice, Table, SCRATCH_ROOM};
use otap_reference::layout;
use otap_reference::reference::screen::Row;
use otap_reference::reference::settings::Operation::{self, Add, Delete, Replace};
use otap_tests::for_both_sets;
use otap_tests::pair::Pair;
use otap_tests::sets::Tried;
use otap_tests::{bytes, lines_of, request};

for_both_sets!(
    both_present_and_one_deleted,
    a_delete_of_the_absent_idtype_does_nothing,
    each_is_overwritten_alone,
    one_more_of_another_idtype_has_no_room,
    a_replace_removes_lines_of_both_idtypes,
    digits_as_they_are_written,
    both_are_exported_and_taken,
    bytes_of_both_lines,
);

/// Example 11 of document 01: adds PABX 2345, no text.
const EXTENSION: &str = "02 02 00 0E 08 07 08 01 CA 00 09 42 01 23 45 FF 00 00";
/// The same of PSTN.
const TELEPHONE: &str = "02 02 00 0E 08 07 08 01 CA 00 09 40 01 23 45 FF 00 00";
const DELETE_EXTENSION: &str = "02 02 00 0E 08 07 08 01 CA 00 09 82 01 23 45 FF 00 00";
const DELETE_TELEPHONE: &str = "02 02 00 0E 08 07 08 01 CA 00 09 80 01 23 45 FF 00 00";

/// A store that took these messages in hex, as the reference did; the rows and exports of both are compared.
fn after<K: Tried>(messages: &[&str]) -> Pair<K> {
    let mut pair = Pair::<K>::fresh();
    for message in messages {
        assert_eq!(pair.commit(&bytes(message)), 0, "{message}");
    }
    pair.compare_exports();
    pair.compare_rows();
    pair
}

/// Numbers 000, 001 and so on, of one IDtype.
fn numbered(pabx: bool, operation: Operation, numbers: std::ops::Range<u8>) -> Vec<u8> {
    let digits = |number: u8| [number / 100, number / 10 % 10, number % 10];
    let numbers: Vec<[u8; 3]> = numbers.map(digits).collect();
    lines_of(pabx, operation, &numbers.iter().map(|digits| &digits[..]).collect::<Vec<_>>())
}

/// The number of a request with these settings, and how many lines there are after it.
fn told<K: Tried>(pair: &mut Pair<K>, settings: &[Vec<u8>]) -> (u8, usize) {
    let number = pair.commit(&request(settings));
    (number, pair.store().counts().expect("a store stays a store").lines)
}

/// IDtype and the first four digits of the line at a position, which stand where docs/STORE.md says.
fn kept<K: Tried>(pair: &Pair<K>, position: usize) -> &[u8] {
    &pair.bytes[K::LIMITS.regions().lines.slot(position) + 1..][..5]
}

fn both_present_and_one_deleted<K: Tried>() {
    let both = after::<K>(&[EXTENSION, TELEPHONE]);
    assert_eq!((kept(&both, 0), kept(&both, 1)), (&[1, 3, 4, 5, 6][..], &[0, 3, 4, 5, 6][..]));
    let [extension, telephone] = [EXTENSION, TELEPHONE].map(|message| after::<K>(&[message]).bytes);
    assert!(after::<K>(&[EXTENSION, TELEPHONE, DELETE_EXTENSION]).bytes == telephone);
    assert!(after::<K>(&[EXTENSION, TELEPHONE, DELETE_TELEPHONE]).bytes == extension);
    assert!(after::<K>(&[TELEPHONE, EXTENSION, DELETE_EXTENSION]).bytes == telephone);
    assert!(after::<K>(&[TELEPHONE, EXTENSION, DELETE_TELEPHONE]).bytes == extension);
    assert!(after::<K>(&[TELEPHONE, EXTENSION]).bytes != both.bytes, "the other order");
}

fn a_delete_of_the_absent_idtype_does_nothing<K: Tried>() {
    assert!(after::<K>(&[EXTENSION, DELETE_TELEPHONE]).bytes == after::<K>(&[EXTENSION]).bytes);
    assert!(after::<K>(&[TELEPHONE, DELETE_EXTENSION]).bytes == after::<K>(&[TELEPHONE]).bytes);
    assert!(after::<K>(&[DELETE_TELEPHONE]).bytes == Pair::<K>::fresh().bytes);
}

/// Both rows show 2345 until one gets a name; the other keeps its place, its flags and its number.
fn each_is_overwritten_alone<K: Tried>() {
    for (place, message) in [
        (0, "02 02 00 10 08 07 08 01 CA 00 0B 7E 01 23 45 FF 00 41 00 00"),
        (1, "02 02 00 10 08 07 08 01 CA 00 0B 7C 01 23 45 FF 00 41 00 00"),
    ] {
        let both = after::<K>(&[EXTENSION, TELEPHONE]);
        let mut named = after::<K>(&[EXTENSION, TELEPHONE, message]);
        let lines = K::LIMITS.regions().lines;
        let slots =
            |pair: &Pair<K>, place| pair.bytes[lines.slot(place)..lines.slot(place + 1)].to_vec();
        assert_eq!(slots(&named, 1 - place), slots(&both, 1 - place));
        assert_eq!((kept(&named, place), slots(&named, place)[0]), (kept(&both, place), 15));
        let mut scratch = [0; SCRATCH_ROOM];
        let store = named.store();
        let mut text = |row: usize| {
            let row = store.row(Table::Lines, row as u32, &mut scratch).expect("the row is there");
            (row.slice(), row.bytes().to_vec())
        };
        assert_eq!(text(place), (Slice::Store, bytes("00 41")));
        assert_eq!(text(1 - place), (Slice::Scratch, bytes("00 32 00 33 00 34 00 35")));
    }
}

/// The places are shared, and a known number of the other IDtype needs one of them.
fn one_more_of_another_idtype_has_no_room<K: Tried>() {
    let (room, most) = (K::MOST_LINES, K::MOST_LINES as u8);
    for pabx in [false, true] {
        let mut pair = Pair::<K>::fresh();
        assert_eq!(told(&mut pair, &[numbered(pabx, Add, 0..most)]), (0, room));
        assert_eq!(told(&mut pair, &[numbered(!pabx, Add, 5..6)]), (2, room));
        assert_eq!(told(&mut pair, &[numbered(pabx, Add, 5..6)]), (0, room));
        let add = numbered(!pabx, Add, 5..6);
        let wrong = [numbered(!pabx, Delete, 5..6), add.clone()];
        assert_eq!(told(&mut pair, &wrong), (2, room), "nothing was freed");
        let right = [numbered(pabx, Delete, 5..6), add];
        assert_eq!(told(&mut pair, &right), (0, room));
        assert_eq!(kept(&pair, room - 1), [u8::from(!pabx), 1, 1, 6, 0]);
        let half = most / 2;
        let halves = [numbered(pabx, Replace, 0..half), numbered(!pabx, Add, 0..half)];
        assert_eq!(told(&mut pair, &halves), (0, room));
        assert_eq!(told(&mut pair, &[numbered(!pabx, Add, half - 1..half + 1)]), (2, room));
        pair.compare_exports();
        pair.compare_rows();
    }
}

fn a_replace_removes_lines_of_both_idtypes<K: Tried>() {
    for pabx in [false, true] {
        let mut pair = after::<K>(&[EXTENSION, TELEPHONE]);
        assert_eq!(told(&mut pair, &[numbered(pabx, Replace, 0..3)]), (0, 3));
        assert_eq!(told(&mut pair, &[numbered(!pabx, Add, 0..3)]), (0, 6));
        assert_eq!(told(&mut pair, &[numbered(pabx, Replace, 0..0)]), (0, 0));
        assert!(pair.bytes == Pair::<K>::fresh().bytes);
    }
}

/// A 0 before a number makes it another, and so does the last of 18 digits.
fn digits_as_they_are_written<K: Tried>() {
    let mut pair = Pair::<K>::fresh();
    let (longest, mut other) = ([7; 18], [7; 18]);
    other[17] = 8;
    let numbers: [&[u8]; 5] = [&[1], &[0, 1], &[1, 0], &longest, &other];
    let all = numbers.len();
    for (pabx, held) in [(false, all), (true, 2 * all)] {
        assert_eq!(told(&mut pair, &[lines_of(pabx, Add, &numbers)]), (0, held));
        assert_eq!(told(&mut pair, &[lines_of(pabx, Add, &numbers)]), (0, held), "known by now");
    }
    for (number, left) in numbers.iter().zip((0..all).rev()) {
        assert_eq!(told(&mut pair, &[lines_of(true, Delete, &[number])]), (0, all + left));
    }
    assert_eq!(told(&mut pair, &[lines_of(true, Delete, &numbers)]), (0, all));
}

/// Whatever the other store held, its first setting empties it of lines of both IDtypes.
fn both_are_exported_and_taken<K: Tried>() {
    let mut both = after::<K>(&[EXTENSION, TELEPHONE]);
    for mut other in
        [Pair::<K>::fresh(), after::<K>(&[TELEPHONE, EXTENSION]), after::<K>(&[TELEPHONE])]
    {
        let mut buffer = vec![0; K::LONGEST_MESSAGE];
        let store = both.store();
        let part = store.export(Part::Lines, &mut buffer).expect("a part of a store");
        assert_eq!(part[8..16], bytes("CA 00 04 C0 00 CA 00 09"));
        assert_eq!(other.commit(part), 0);
        assert!(other.bytes == both.bytes);
    }
}

/// A store with both lines; with one IDtype twice it is none.
fn bytes_of_both_lines<K: Tried>() {
    let both = after::<K>(&[EXTENSION, TELEPHONE]).bytes;
    let opened = |changes: &[(usize, u8)]| {
        let mut poked = both.clone();
        changes.iter().for_each(|&(place, byte)| poked[place] = byte);
        Set::<K>::open(&mut poked).map(|store| store.bytes().to_vec())
    };
    let lines = K::LIMITS.regions().lines;
    let (first, second) = (lines.slot(0) + 1, lines.slot(1) + 1);
    assert_eq!(opened(&[]).as_ref(), Ok(&both));
    assert_eq!(opened(&[(first, 0)]), Err(Refusal::NotAStore));
    assert_eq!(opened(&[(second, 1)]), Err(Refusal::NotAStore));
    assert_eq!(opened(&[(second, 2)]), Err(Refusal::NotAStore));
    assert_eq!(opened(&[(second, 1), (second - 1, 15)]), Err(Refusal::NotAStore), "other flags");
    let text = layout::text_at(&both, K::LIMITS, Row::Line(1)) + 1;
    assert_eq!(opened(&[(second, 1), (text, 1)]), Err(Refusal::NotAStore), "a text");
    // The order has the telephone before the extension; as it stands, it is the other line's turn.
    let order = K::LIMITS.regions().order.start;
    let (one, two) = ((order, 1), (order + 1, 2));
    assert!(opened(&[(second, 1), (second + 4, 7), one, two]).is_ok(), "PABX 2346");
    assert!(opened(&[(second, 1), (second + 5, 1), one, two]).is_ok(), "PABX 23450");
    assert_eq!(opened(&[(second, 1), (second + 4, 7)]), Err(Refusal::NotAStore), "their order");
    let exchanged = opened(&[(first, 0), (second, 1), one, two]);
    assert_eq!(exchanged, Ok(after::<K>(&[TELEPHONE, EXTENSION]).bytes));
}
