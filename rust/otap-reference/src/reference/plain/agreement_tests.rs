//! The plain engine beside a hand-held: the same numbers, replies and row texts, unit for unit, for as long as its area lasts.

use super::*;
use crate::inputs::random::Random;
use crate::inputs::Inputs;
use crate::reference::commit::judge;
use crate::reference::screen::{row_number, row_part, Row, Shown};
use std::collections::BTreeMap;

/// The first place of each table to ask for, and the first behind the last.
const PLACES: [(u32, u32); 8] =
    [(0, 34), (0, 66), (30, 130), (0, 18), (0, 18), (0, 66), (0, 66), (0, 18)];

fn row(table: u32, place: u32) -> Row {
    let place = place as usize;
    match table {
        1 => Row::Line(place),
        2 => Row::Quick(place),
        3 => Row::Status(place),
        4 => Row::Group(place),
        5 => Row::Individual(place),
        6 => Row::GroupContact(place),
        7 => Row::IndividualContact(place),
        _ => Row::LineSlot(place),
    }
}

/// A plain engine and a hand-held, which are sent the same.
struct Both {
    area: Vec<u8>,
    set: Set,
    /// How often each number was answered, and how often a row showed what.
    numbers: BTreeMap<u8, usize>,
    shown: BTreeMap<&'static str, usize>,
}

impl Both {
    fn started() -> Both {
        let (area, set) = (super::by_hand::started(), Set::fresh(HANDHELD));
        Both { area, set, numbers: BTreeMap::new(), shown: BTreeMap::new() }
    }

    /// 18 exactly where the hand-held would take a request that passes the end, which it then is not sent; else the same answer and reply.
    fn take(&mut self, message: &[u8]) {
        let (before, mut reply) = (self.area.clone(), [0xEE; REPLY_ROOM + 5]);
        let answer = plain_take(message, &mut self.area, &mut reply);
        *self.numbers.entry(answer.number).or_default() += 1;
        let mut wanted = [0xEE; REPLY_ROOM + 5];
        let judged = judge(message, &self.set, &mut wanted);
        let would_keep = judged.number == TAKEN && is_request(message);
        if would_keep && USED + used(&before) + LENGTH + message.len() > AREA {
            assert_eq!(answer, Answer { number: 18, ..Answer::default() });
            assert_eq!((reply, &self.area), ([0xEE; REPLY_ROOM + 5], &before));
            return;
        }
        assert_eq!(
            (commit(message, &mut self.set, &mut [0; REPLY_ROOM]), judged),
            (answer, answer)
        );
        assert_eq!(reply, wanted, "{message:02X?}");
        assert_eq!(self.area != before, would_keep, "{message:02X?}");
    }

    fn compare_row(&mut self, table: u32, place: u32) {
        let row = row(table, place);
        let (mut scratch, mut other) = ([0xEE; PLAIN_SCRATCH_ROOM], [0xEE; PLAIN_SCRATCH_ROOM]);
        let number = plain_row_number(table, place, &self.area, &scratch);
        assert_eq!(number, row_number(row, true, &self.set, &other), "{row:?}");
        let part = plain_row_part(table, place, &self.area, &mut scratch);
        let shown = row_part(row, true, &self.set, &mut other);
        let bytes = part.bytes(&scratch);
        assert!(scratch[bytes.len()..].iter().all(|&byte| byte == 0xEE));
        let units: Vec<u16> =
            bytes.chunks_exact(2).map(|unit| u16::from_be_bytes([unit[0], unit[1]])).collect();
        let from = match (part, &shown) {
            (PlainShown::Nothing, Shown::Nothing) => "nothing",
            (PlainShown::Scratch(_), Shown::Stored(text)) if units == *text => "text",
            (PlainShown::Scratch(_), Shown::Scratch(digits)) if units == *digits => "number",
            _ => panic!("{row:?}: {part:?} {units:?} is not {shown:?}"),
        };
        *self.shown.entry(from).or_default() += 1;
    }

    fn compare_rows(&mut self) {
        for (table, (first, end)) in (1..).zip(PLACES) {
            (first..end).for_each(|place| self.compare_row(table, place));
        }
    }
}

/// Messages of every kind until the area is full, and some more: rows at random after each, and all of them on the way and at the end.
#[test]
fn until_the_area_is_full() {
    let (mut numbers, mut shown) = (BTreeMap::<u8, usize>::new(), BTreeMap::<&str, usize>::new());
    for seed in 0..6 {
        let (mut inputs, mut random) = (Inputs::new(seed, HANDHELD), Random::new(!seed));
        let mut both = Both::started();
        let mut sent = 0;
        while both.numbers.get(&18).copied().unwrap_or(0) < 15 {
            assert!(sent < 2_000, "the area is never full");
            both.take(&inputs.message());
            sent += 1;
            for _ in 0..3 {
                let table = random.below(PLACES.len());
                let (first, end) = PLACES[table];
                let place = first + random.below((end - first) as usize) as u32;
                both.compare_row(table as u32 + 1, place);
            }
            if sent == 60 {
                both.compare_rows();
            }
        }
        both.compare_rows();
        println!("seed {seed}: {sent} messages, {} bytes, {:?}", used(&both.area), both.numbers);
        both.numbers
            .into_iter()
            .for_each(|(number, times)| *numbers.entry(number).or_default() += times);
        both.shown.into_iter().for_each(|(from, times)| *shown.entry(from).or_default() += times);
    }
    println!("{numbers:?} {shown:?}");
    assert!([0, 1, 2, 3, 4, 5, 12, 13, 14, 18].iter().all(|number| numbers[number] > 5));
    assert!(["nothing", "text", "number"].iter().all(|from| shown[from] > 500));
}

/// Small requests alone, so that many are kept, and what is left at the end is less than any of them.
#[test]
fn many_small_requests() {
    let (mut inputs, mut both) = (Inputs::new(99, HANDHELD), Both::started());
    let mut refused = 0;
    while refused < 10 {
        let message = inputs.message();
        if message.len() <= 200 {
            both.take(&message);
            refused = both.numbers.get(&18).copied().unwrap_or(0);
        }
    }
    println!("{:?}, {} requests kept", both.numbers, kept(&both.area).expect("an area").len());
    assert!(kept(&both.area).expect("an area").len() > 200);
    both.compare_rows();
}
