//! The plain engine beside a hand-held, on long seeded logs: the same answers, replies and rows until the area is full; and beside the reference.
//!
//! A call takes time that grows with the square of what is kept: all rows are compared while the log is small, and its middle is requests of few entries.

use otap::{Table, AREA_SIZE};
use otap_reference::inputs::random::Random;
use otap_reference::inputs::Inputs;
use otap_reference::reference::limits::HANDHELD;
use otap_tests::desk::{of_size, row, take_into, used, Both};
use std::collections::BTreeMap;

/// Used bytes after which all rows are compared, and then the middle of the log follows, and how many bytes it leaves.
const ALL_ROWS: [usize; 3] = [200, 1_000, 3_000];
const LEFT: usize = 2_000;

fn any_row(random: &mut Random) -> (Table, u32) {
    let table = random.pick(Table::ALL);
    let places = table.places();
    let row =
        random.within(places.start as usize - usize::from(places.start > 0)..=places.end as usize);
    (table, row as u32)
}

/// A message of at most so many bytes.
fn short_message(inputs: &mut Inputs, longest: usize) -> Vec<u8> {
    std::iter::repeat_with(|| inputs.message())
        .find(|message| message.len() <= longest)
        .expect("one comes some day")
}

/// Messages to both until several were refused with 18, those up to a size; some rows after each, and all of them on the way and at the end.
fn until_full(seed: u64, longest: usize, met: &mut BTreeMap<u8, usize>) {
    let (mut inputs, mut random) = (Inputs::new(seed, HANDHELD), Random::new(!seed));
    let mut both = Both::started();
    let (mut full, mut sent, mut shown) = (0, 0, 0);
    let mut steps = ALL_ROWS.iter().peekable();
    while full < 3 {
        assert!(sent < 20_000, "the area is never full");
        let message = short_message(&mut inputs, longest);
        let number = both.take(&message);
        *met.entry(number).or_default() += 1;
        full += usize::from(number == 18);
        sent += 1;
        for _ in 0..2 {
            let (table, row) = any_row(&mut random);
            shown += usize::from(both.compare_row(table, row));
        }
        if steps.next_if(|&&step| used(&both.area) >= step).is_some() {
            shown += both.compare_rows();
            while steps.peek().is_none() && used(&both.area) + LEFT + 3_100 < AREA_SIZE {
                assert_eq!(both.take(&of_size(3_099)), 0);
            }
        }
    }
    for _ in 0..100 {
        let (table, row) = any_row(&mut random);
        shown += usize::from(both.compare_row(table, row));
    }
    println!("seed {seed}: {sent} messages, {} bytes, {shown} rows shown", used(&both.area));
    assert!(shown > 100);
}

#[test]
fn until_the_area_is_full() {
    let mut met = BTreeMap::new();
    for seed in 12_000..12_003 {
        until_full(seed, 800, &mut met);
    }
    println!("{met:?}");
    assert!([0, 2, 3, 4, 5, 13, 14, 18].into_iter().all(|number| met.contains_key(&number)));
}

/// So that many are kept.
#[test]
fn many_small_requests() {
    let mut met = BTreeMap::new();
    until_full(12_100, 150, &mut met);
    println!("{met:?}");
    assert!(met[&0] > 60);
}

/// Shorter logs, each with the bytes of the area, every reply buffer and rows of every table by the reference too.
#[test]
fn beside_the_reference() {
    let mut met = BTreeMap::<u8, usize>::new();
    for seed in 12_200..12_212 {
        let (mut inputs, mut random) = (Inputs::new(seed, HANDHELD), Random::new(!seed));
        let mut both = Both::started();
        for turn in 0..24 {
            let message = short_message(&mut inputs, 400);
            let room = random.pick(&[0, 19, 20, 20, 20, 21, 40]);
            let mut area = both.area.clone();
            let number = take_into(&message, &mut area, room).number;
            *met.entry(number).or_default() += 1;
            both.take(&message);
            assert!(number == 10 || area == both.area);
            let (table, place) = any_row(&mut random);
            let shown = row(table.number(), place, &both.area).err().unwrap_or(0);
            *met.entry(shown).or_default() += 1;
            // One byte changed, mostly of what is used.
            if turn % 4 == 3 {
                let mut changed = both.area.clone();
                let place = random.below(used(&changed) + 5);
                changed[place] ^= 1 << random.below(8);
                let number = take_into(&short_message(&mut inputs, 400), &mut changed, 20).number;
                *met.entry(number).or_default() += 1;
            }
        }
    }
    println!("{met:?}");
    assert!([0, 2, 3, 4, 10, 11, 13, 14, 17].into_iter().all(|number| met.contains_key(&number)));
}
