//! Who is calling: the row that has a caller's number, by the archive and by the reference, after every kind of change.

use otap::{Refusal, Set, Table, PABX, PSTN, SCRATCH_ROOM};
use otap_reference::inputs::callers::Caller;
use otap_reference::inputs::pokes::poke_order;
use otap_reference::inputs::random::Random;
use otap_reference::inputs::Inputs;
use otap_reference::layout;
use otap_reference::reference::settings::Operation::{self, Add, Delete, Replace};
use otap_tests::for_both_sets;
use otap_tests::pair::{number_of, Pair};
use otap_tests::sets::Tried;
use otap_tests::{bytes, hex_request, lines_of, request};

for_both_sets!(
    four_lines,
    no_number,
    eighteen_digits,
    after_a_delete,
    after_a_replace_and_after_clearing,
    the_name_last_sent,
    line_slots_are_not_looked_up,
    lines_one_by_one,
    callers_of_many_stores,
    poked_orders_have_no_callers,
    bytes_of_four_lines,
);

/// PSTN 2345, PABX 2345 with the name A, PSTN 23 and PSTN 3, in this order.
const FOUR: [&str; 4] = [
    "CA 00 09 40 01 23 45 FF 00 00",
    "CA 00 0B 42 01 23 45 FF 00 41 00 00",
    "CA 00 08 40 01 23 FF 00 00",
    "CA 00 07 40 01 3F 00 00",
];

fn four<K: Tried>() -> Pair<K> {
    after(Pair::<K>::fresh(), &FOUR)
}

fn after<K: Tried>(mut pair: Pair<K>, settings: &[&str]) -> Pair<K> {
    assert_eq!(pair.commit(&hex_request(settings)), 0, "{settings:?}");
    pair
}

/// The row of a number as it is read out.
fn row<K: Tried>(pair: &mut Pair<K>, id_type: u32, number: &str) -> Option<u32> {
    let digits: Vec<u8> = number.bytes().map(|digit| digit - b'0').collect();
    pair.call_from(id_type, &digits).expect("the number is one")
}

fn rows<K: Tried, const N: usize>(pair: &mut Pair<K>, keys: [(u32, &str); N]) -> [Option<u32>; N] {
    keys.map(|(id_type, number)| row(pair, id_type, number))
}

/// The bytes of the order in use; those behind are 0.
fn order<K: Tried>(pair: &Pair<K>) -> Vec<u8> {
    let order = &pair.bytes[K::LIMITS.regions().order];
    let used = order.iter().take_while(|&&name| name != 0).count();
    assert!(order[used..].iter().all(|&name| name == 0));
    order[..used].to_vec()
}

fn four_lines<K: Tried>() {
    let mut pair = four::<K>();
    assert_eq!(order(&pair), [3, 1, 4, 2]);
    let keys = [(PSTN, "2345"), (PABX, "2345"), (PSTN, "23"), (PSTN, "3")];
    assert_eq!(rows(&mut pair, keys), [0, 1, 2, 3].map(Some));
    for number in ["234", "23456", "2", "33", "02345", "23450", "2346", "0", "999"] {
        assert_eq!(rows(&mut pair, [(PSTN, number), (PABX, number)]), [None; 2], "{number}");
    }
    assert_eq!(rows(&mut pair, [(PABX, "23"), (PABX, "3")]), [None; 2]);
    // Also such as are 0 or 1 in their low byte, half or bit.
    for id_type in [2, 3, 255, 0x100, 0x101, 0x1_0000, 0x1_0001, 0x8000_0000, u32::MAX] {
        assert_eq!(rows(&mut pair, [(id_type, "2345"), (id_type, "3")]), [None; 2], "{id_type:X}");
    }
}

fn no_number<K: Tried>() {
    let mut pair = four::<K>();
    let mut short = Pair::<K>::of(pair.bytes[1..].to_vec(), pair.set.clone());
    for digits in [&[][..], &[2; 19], &[0; 300], &[10], &[2, 3, 10], &[10, 3], &[2, 255], b"2345"] {
        for id_type in [PSTN, PABX, 2, u32::MAX] {
            assert_eq!(pair.call_from(id_type, digits), Err(20), "{id_type} {digits:?}");
            assert_eq!(short.call_from(id_type, digits), Err(11), "{id_type} {digits:?}");
        }
        let refusal = pair.store().line_of(PSTN, digits);
        assert_eq!(refusal, Err(Refusal::BadNumber));
    }
    assert_eq!(short.call_from(PSTN, &[3]), Err(11));
}

/// As many as a line may have, and one fewer, which comes before it in the order.
fn eighteen_digits<K: Tried>() {
    let numbers: [&[u8]; 2] = [&[9; 18], &[9; 17]];
    let mut pair = Pair::<K>::fresh();
    assert_eq!(pair.commit(&request(&[lines_of(true, Add, &numbers)])), 0);
    assert_eq!(order(&pair), [2, 1]);
    assert_eq!(numbers.map(|digits| pair.call_from(PABX, digits)), [Ok(Some(0)), Ok(Some(1))]);
    assert_eq!(pair.call_from(PABX, &[9; 16]), Ok(None));
    assert_eq!(pair.call_from(PABX, &[9; 19]), Err(20));
}

fn after_a_delete<K: Tried>() {
    let mut pair = after(four::<K>(), &["CA 00 09 80 01 23 45 FF 00 00"]);
    assert_eq!(order(&pair), [2, 3, 1]);
    let keys = [(PSTN, "2345"), (PABX, "2345"), (PSTN, "23"), (PSTN, "3")];
    assert_eq!(rows(&mut pair, keys), [None, Some(0), Some(1), Some(2)]);
    let mut pair = after(pair, &FOUR[..1]);
    assert_eq!(order(&pair), [2, 4, 3, 1]);
    assert_eq!(rows(&mut pair, keys), [3, 0, 1, 2].map(Some));
}

/// 3, 2345 and 23 of PABX, where the first comes once more; then PSTN 3; then none.
fn after_a_replace_and_after_clearing<K: Tried>() {
    let replace = "CA 00 15 C2 04 3F 00 00 23 45 FF 00 00 23 FF 00 00 3F 00 42 00 00";
    let mut pair = after(four::<K>(), &[replace]);
    assert_eq!(order(&pair), [3, 2, 1]);
    let keys = [(PABX, "3"), (PABX, "2345"), (PABX, "23"), (PSTN, "3")];
    assert_eq!(rows(&mut pair, keys), [Some(0), Some(1), Some(2), None]);
    let mut pair = after(pair, &FOUR[3..]);
    assert_eq!(order(&pair), [4, 3, 2, 1]);
    assert_eq!(rows(&mut pair, keys), [0, 1, 2, 3].map(Some));
    let mut pair = after(pair, &["CA 00 04 C0 00"]);
    assert!(order(&pair).is_empty());
    assert_eq!(rows(&mut pair, keys), [None; 4]);
    assert_eq!(pair.call_from(PSTN, &[]), Err(20));
}

/// A name sent again with the same IDtype and digits is the one shown; the other line's stays.
fn the_name_last_sent<K: Tried>() {
    let mut pair = four::<K>();
    let mut name = |settings: &[&str], id_type| {
        assert_eq!(pair.commit(&hex_request(settings)), 0);
        let row = row(&mut pair, id_type, "2345").expect("a line has the number");
        let mut scratch = [0; SCRATCH_ROOM];
        let store = pair.store();
        let shown = store.row(Table::Lines, row, &mut scratch).expect("the row is there");
        shown.bytes().to_vec()
    };
    let (digits, again) = (bytes("00 32 00 33 00 34 00 35"), "CA 00 0B 42 01 23 45 FF 00 42 00 00");
    assert_eq!(name(&FOUR[3..], PABX), bytes("00 41"));
    assert_eq!(name(&FOUR[3..], PSTN), digits);
    assert_eq!(name(&["CA 00 08 80 01 23 FF 00 00", again], PABX), bytes("00 42"));
    assert_eq!(name(&["CA 00 09 80 01 23 45 FF 00 00", FOUR[0]], PSTN), digits);
    assert_eq!(name(&["CA 00 09 82 01 23 45 FF 00 00", FOUR[1]], PABX), bytes("00 41"));
}

fn line_slots_are_not_looked_up<K: Tried>() {
    let slots = ["D3 00 07 40 00 3F 00 00", "D3 00 09 42 03 23 45 FF 00 00"];
    let mut pair = after(Pair::<K>::fresh(), &slots);
    assert_eq!(rows(&mut pair, [(PSTN, "3"), (PABX, "2345")]), [None; 2]);
    assert!(order(&pair).is_empty());
}

/// Every number comes and goes at every place of a full list: forwards, backwards, and from the middle.
fn lines_one_by_one<K: Tried>() {
    let most = K::MOST_LINES;
    let digits = |place: u8| [place / 100, place / 10 % 10, place % 10];
    let numbers: Vec<[u8; 3]> = (0..most as u8).map(digits).collect();
    for (step, start) in [(1, 0), (most - 1, most - 1), (11, most / 2), (5, 3)] {
        let mut pair = Pair::<K>::fresh();
        for operation in [Add, Delete] {
            for turn in 0..most {
                let place = (start + turn * step) % most;
                come_or_go(&mut pair, operation, place, &numbers[place]);
                // As often on a longer list, which takes longer.
                if turn % (most / 32) == 0 {
                    find_all(&mut pair);
                }
            }
        }
        let all: Vec<&[u8]> = numbers.iter().rev().map(|digits| &digits[..]).collect();
        assert_eq!(pair.commit(&request(&[lines_of(true, Replace, &all)])), 0);
        assert_eq!(order(&pair), (1..=most as u8).rev().collect::<Vec<_>>());
        find_all(&mut pair);
    }
}

/// A number of the IDtype that its place is odd or even by is added or deleted, and then found or not.
fn come_or_go<K: Tried>(pair: &mut Pair<K>, operation: Operation, place: usize, number: &[u8]) {
    let line = lines_of(place % 2 == 1, operation, &[number]);
    assert_eq!(pair.commit(&request(&[line])), 0);
    let found = pair.call_from(place as u32 % 2, number);
    assert_eq!(found.map(|row| row.is_some()), Ok(operation == Add));
}

/// Each line of the store at its own row; its other IDtype, an IDtype of no line, a digit fewer and one more as the reference says.
fn find_all<K: Tried>(pair: &mut Pair<K>) {
    let lines = pair.set.tables.lines.clone();
    for (place, line) in (0..).zip(&lines) {
        let (id_type, digits) = (u32::from(line.flags.pabx), &line.digits[..]);
        assert_eq!(pair.call_from(id_type, digits), Ok(Some(place)));
        let other = pair.call_from(id_type ^ 1, digits);
        assert_ne!(other, Ok(Some(place)));
        assert_eq!(pair.call_from(id_type + 2, digits), Ok(None));
        let fewer = pair.call_from(id_type, &digits[1..]);
        assert_eq!(fewer.is_err(), digits.len() == 1);
        let more = [digits, &[place as u8 % 10]].concat();
        assert_eq!(pair.call_from(id_type, &more).is_err(), more.len() == 19);
        assert_ne!(pair.call_from(id_type, &digits[..digits.len() - 1]), Ok(Some(place)));
    }
}

fn callers_of_many_stores<K: Tried>() {
    let (mut found, mut absent, mut refused, mut full) = (0, 0, 0, 0);
    for seed in 7_000..7_060 {
        let mut inputs = Inputs::new(seed, K::LIMITS);
        let mut pair = Pair::<K>::fresh();
        for turn in 0..40 {
            pair.commit(&inputs.message());
            full += usize::from(pair.set.tables.lines.len() == K::MOST_LINES);
            for _ in 0..10 {
                let Caller { id_type, digits } = inputs.caller();
                match pair.call_from(id_type, &digits) {
                    Ok(Some(_)) => found += 1,
                    Ok(None) => absent += 1,
                    Err(_) => refused += 1,
                }
            }
            if turn % 10 == 9 {
                find_all(&mut pair);
            }
        }
    }
    println!("{found} found, {absent} absent, {refused} refused; {full} full");
    assert!(found > 5_000 && absent > 5_000 && refused > 2_000 && full > 100);
}

/// 11 before all else, and without a row, also for a line's own number, unless the order is the right one.
fn poked_orders_have_no_callers<K: Tried>() {
    let mut random = Random::new(9);
    let (mut stores, mut refused) = (0, 0);
    for seed in 7_100..7_130 {
        let mut inputs = Inputs::new(seed, K::LIMITS);
        let mut pair = Pair::<K>::fresh();
        for _ in 0..40 {
            pair.commit(&inputs.message());
        }
        for _ in 0..200 {
            let mut poked = pair.bytes.clone();
            poke_order(&mut random, K::LIMITS, &mut poked);
            let is_store = poked == pair.bytes;
            assert_eq!(layout::is_store(&poked, K::LIMITS), is_store);
            let Caller { id_type, digits } = inputs.caller();
            let packed = K::otap_line_of(id_type, &digits, &poked);
            let answer = Set::<K>::lent(&mut poked).line_of(id_type, &digits);
            if is_store {
                assert_eq!(answer.map_err(Refusal::number), pair.call_from(id_type, &digits));
                stores += 1;
            } else {
                assert_eq!((number_of(&answer), packed), (11, 11));
                refused += 1;
            }
        }
    }
    println!("{stores} still a store, {refused} refused");
    assert!(stores > 200 && refused > 3_000);
}

/// The first two bytes exchanged, a longer number before a shorter one; and each byte of the order.
fn bytes_of_four_lines<K: Tried>() {
    let pair = four::<K>();
    let order = K::LIMITS.regions().order.start;
    let opened = |place: usize, byte: u8| {
        let mut poked = pair.bytes.clone();
        poked[order + place] = byte;
        Set::<K>::open(&mut poked).map(|_| ())
    };
    let mut exchanged = pair.bytes.clone();
    exchanged.swap(order, order + 1);
    let answer = Set::<K>::lent(&mut exchanged).line_of(PSTN, &[3]);
    assert_eq!(answer, Err(Refusal::NotAStore));
    for place in 0..K::MOST_LINES {
        let right = pair.bytes[order + place];
        for byte in (0..=K::MOST_LINES as u8 + 1).chain([64, 128, 255]) {
            assert_eq!(opened(place, byte).is_ok(), byte == right, "{place}: {byte}");
        }
    }
}
