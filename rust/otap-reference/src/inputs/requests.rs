//! Whole requests in good form, of several shapes.

mod fills;
pub mod texts;

use super::draft::Draft;
use super::maker::{Maker, Size};
use super::random::Random;
use crate::reference::tables::Set;

/// A request in good form; it may still find no room.
pub fn request(random: &mut Random, set: &Set) -> Draft {
    match random.below(100) {
        0..=26 => few(random, set),
        27..=38 => texts::fill(random, set),
        39..=46 => many(random, set),
        47..=54 => {
            let most = set.limits.message;
            let length = if random.flag() { most } else { random.within(most - 196..=most) };
            long(random, set, length)
        }
        55..=68 => fills::lines(random, set),
        69..=80 => fills::channels(random, set),
        81 => fills::quick_texts(random, set),
        82..=90 => fills::contacts(random, set, 0xC8),
        _ => fills::contacts(random, set, 0xC9),
    }
}

/// A request that fills a table, or the area of the texts.
pub fn filling(random: &mut Random, set: &Set) -> Draft {
    match random.below(6) {
        0 => fills::lines(random, set),
        1 => fills::channels(random, set),
        2 => fills::quick_texts(random, set),
        3 => fills::contacts(random, set, 0xC8),
        4 => fills::contacts(random, set, 0xC9),
        _ => texts::fill(random, set),
    }
}

pub fn maker<'a>(random: &'a mut Random, set: &'a Set, draft: &Draft) -> Maker<'a> {
    Maker { random, set, coding: draft.coding, slip_after: None }
}

pub fn any_size(random: &mut Random) -> Size {
    if random.percent(20) {
        Size::Large
    } else {
        Size::Small
    }
}

fn few(random: &mut Random, set: &Set) -> Draft {
    let mut draft = Draft::new(random, set.limits);
    for _ in 0..random.pick(&[0, 1, 1, 1, 2, 3, 5]) {
        let size = any_size(random);
        draft.push_if_room(maker(random, set, &draft).any(size));
    }
    if draft.settings.is_empty() || random.flag() {
        draft.push_if_room(maker(random, set, &draft).last());
    }
    draft
}

/// Up to 255 small settings, ParamSum's whole width.
fn many(random: &mut Random, set: &Set) -> Draft {
    let mut draft = Draft::new(random, set.limits);
    let count = random.pick(&[20, 100, 254, 254]);
    for _ in 0..count {
        // Mostly types that always have room, or few such requests would be taken.
        let kind = random
            .pick(&[0xCB, 0xCC, 0xCD, 0xCF, 0xCF, 0xCB, 0xD1, 0xD2, 0xD3, 0xCE, 0xCA, 0xC8, 0xC9]);
        let few_room = can_be_full(kind) && random.percent(90);
        let kind = if few_room { 0xCD } else { kind };
        draft.push_if_room(maker(random, set, &draft).of_type(kind, Size::Small));
    }
    draft.push_if_room(maker(random, set, &draft).last());
    draft
}

/// The types whose table can be full.
fn can_be_full(kind: u8) -> bool {
    matches!(kind, 0xC8 | 0xC9 | 0xCA | 0xCE)
}

/// A request of exactly `length` bytes.
pub fn long(random: &mut Random, set: &Set, length: usize) -> Draft {
    let mut draft = Draft::new(random, set.limits);
    for _ in 0..random.below(5) {
        let setting = maker(random, set, &draft).any(Size::Large);
        if draft.size() + setting.len() + 60 <= length {
            draft.settings.push(setting);
        }
    }
    let last = random.flag().then(|| maker(random, set, &draft).last());
    let kept = last.as_ref().map_or(0, Vec::len);
    fill(random, set, &mut draft, length - kept);
    draft.settings.extend(last);
    draft
}

/// Adds settings up to exactly `length` bytes, which are at least 4 more, or none.
pub fn fill(random: &mut Random, set: &Set, draft: &mut Draft, length: usize) {
    while draft.size() < length {
        let left = length - draft.size();
        draft.settings.push(filler(random, set, draft, left));
    }
}

/// A setting that nearly always has room, of a size that leaves nothing or at least 4 bytes.
fn filler(random: &mut Random, set: &Set, draft: &Draft, left: usize) -> Vec<u8> {
    loop {
        let kind = random.pick(&[0xCB, 0xCD, 0xD0, 0xD1, 0xD2, 0xD3, 0xCC, 0xCE, 0xC8, 0xC9]);
        let size = if left > 1_000 { Size::Large } else { Size::Small };
        let setting = maker(random, set, draft).of_type(kind, size);
        let takes_room = can_be_full(kind) && setting[3] >> 6 != 2;
        let fits = setting.len() == left || setting.len() + 4 <= left;
        if fits && (!takes_room || left < 60) {
            return setting;
        }
    }
}
