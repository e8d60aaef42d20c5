//! Stores with a poked count, with a list that changed beside its count, with a poked order of lines, with a poked line slot, or with poked texts.

use super::random::Random;
use crate::layout::{Slots, CHANNEL, COUNT, LINE_KEY};
use crate::reference::limits::{Limits, Texts};
use crate::reference::tables::SLOTS;
use crate::reference::texts::{QUICK_TEXT, SHORT_TEXT};

/// Gives a list another count.
pub fn set_count(list: Slots, bytes: &mut [u8], count: u16) {
    bytes[list.at - COUNT..list.at].copy_from_slice(&count.to_be_bytes());
}

/// Gives one of a store's counts another value, or at times the one that it has.
pub fn poke_count(random: &mut Random, limits: Limits, bytes: &mut [u8]) {
    let lists = limits.regions().lists();
    let place = random.below(lists.len());
    let list = lists[place];
    let other = lists[(place + random.within(1..=lists.len() - 1)) % lists.len()];
    let truth = list.count(bytes);
    let places = list.places as u16;
    let poked = match random.below(11) {
        0 => truth.wrapping_add(1),
        1 => truth.wrapping_sub(1),
        2 => 0,
        3 => places,
        4 => places + 1,
        5 => truth ^ 1 << random.below(16),
        6 => truth.swap_bytes(),
        7 => other.count(bytes),
        8 => places - truth,
        // Counted in 16 bits, so many slots can take as many bytes as the true count's do.
        9 => truth.wrapping_add(random.pick(&[1 << 14, 1 << 15])),
        _ => random.bits(16) as u16,
    };
    set_count(list, bytes, poked);
}

/// Copies the first entry of a store's list to its end, at times with another key, or takes the last one away; half of the time its count follows,
/// of lines mostly their order, and mostly a shared area.
pub fn poke_list(random: &mut Random, limits: Limits, bytes: &mut [u8]) {
    let list = random.pick(&limits.regions().lists());
    let count = usize::from(list.count(bytes));
    let longer = if random.percent(50) {
        // Of a full list the last entry is overwritten; of an empty one a slot stays empty, or gets some of a key alone.
        let end = list.slot(count.min(list.places - 1));
        bytes.copy_within(list.slot(0)..list.slot(1), end);
        if random.flag() {
            other_key(random, limits, list, &mut bytes[end..end + list.width]);
        }
        count + 1
    } else {
        let last = list.slot(count.saturating_sub(1));
        bytes[last..last + list.width].fill(0);
        count.saturating_sub(1)
    };
    if random.percent(50) {
        set_count(list, bytes, longer as u16);
    }
    if list == limits.regions().lines && random.percent(80) {
        order_lines(limits, bytes);
    }
    if random.percent(80) {
        fit_texts(limits, bytes);
    }
}

/// Gives the lines that a store counts the order of their keys.
pub fn order_lines(limits: Limits, bytes: &mut [u8]) {
    let regions = limits.regions();
    let key = |&place: &usize| &bytes[regions.lines.slot(place)..][LINE_KEY];
    let count = usize::from(regions.lines.count(bytes)).min(limits.lines);
    let mut places: Vec<usize> = (0..count).collect();
    places.sort_by(|one, other| key(one).cmp(key(other)));
    let order = &mut bytes[regions.order];
    order.fill(0);
    for (byte, place) in order.iter_mut().zip(places) {
        *byte = place as u8 + 1;
    }
}

/// Gives a shared area as many units as the slots of a store count, if it has room for them: those that it has, then others, then zeros.
pub fn fit_texts(limits: Limits, bytes: &mut [u8]) {
    let regions = limits.regions();
    let used = 2 * regions.units(bytes, &regions.with_texts());
    if limits.texts == Texts::Placed || used > regions.area.len() {
        return;
    }
    let (texts, rest) = bytes[regions.area].split_at_mut(used);
    let missing = texts.chunks_exact_mut(2).filter(|unit| **unit == [0, 0]);
    missing.for_each(|unit| unit.copy_from_slice(&[0x4E, 0x2D]));
    rest.fill(0);
}

/// Gives a store's lines another order, or at times the one that they have; also bytes that are none.
pub fn poke_order(random: &mut Random, limits: Limits, bytes: &mut [u8]) {
    let (most, regions) = (limits.lines, limits.regions());
    let count = usize::from(regions.lines.count(bytes)).min(most);
    let order = &mut bytes[regions.order];
    let (place, other) = (random.below(count.max(1)), random.below(count.max(1)));
    let behind = count.min(most - 1);
    match random.below(12) {
        0 => order.swap(place, other),
        1 => order.swap(place, (place + 1) % count.max(1)),
        2 => order[place] = 0,
        3 => order[place] = order[other],
        // The next place, which is empty, the last one, and none.
        4 => order[place] = random.pick(&[count + 1, most, most + 1, 255]) as u8,
        // One too many, and other bytes behind.
        5 => order[behind] = random.pick(&[1, count, count + 1]) as u8,
        6 => order[random.within(behind..=most - 1)] = random.bits(8) as u8,
        7 => order[..count].reverse(),
        8 => (0..count).for_each(|place| order[place] = place as u8 + 1),
        9 => order[..count].iter_mut().for_each(|name| *name = name.wrapping_sub(1)),
        10 => order[place..].rotate_right(1),
        _ => order[random.below(most)] ^= 1 << random.below(8),
    }
}

/// A line with the other IDtype, or a contact whose address differs in one bit; a channel has no key.
fn other_key(random: &mut Random, limits: Limits, list: Slots, slot: &mut [u8]) {
    if list == limits.regions().lines {
        slot[1] ^= 1;
    } else if list.width != CHANNEL {
        slot[random.within(1..=3)] ^= 1 << random.below(8);
    }
}

/// Gives a line slot what another or a line contact has, empties it, or changes a byte of its flags, IDtype or digits; mostly a shared area follows.
pub fn poke_line_slot(random: &mut Random, limits: Limits, bytes: &mut [u8]) {
    let regions = limits.regions();
    let (slots, width) = (regions.line_slots, regions.line_slots.width);
    let at = slots.slot(random.below(SLOTS));
    match random.below(4) {
        0 => {
            let from = slots.slot(random.below(SLOTS));
            bytes.copy_within(from..from + width, at);
        }
        1 => {
            let from = regions.lines.slot(random.below(limits.lines));
            bytes.copy_within(from..from + width, at);
        }
        2 => bytes[at..at + width].fill(0),
        _ => {
            let place = at + random.pick(&[0, 1, 2, 3, 10, 18, 19]);
            bytes[place] = random.pick(&[0, 1, 2, 9, 10, 11, 15, 16, 255]);
        }
    }
    if random.percent(80) {
        fit_texts(limits, bytes);
    }
}

/// Changes texts and what says how long they are: in the places of two slots, or in their numbers of units and in the area.
pub fn poke_texts(random: &mut Random, limits: Limits, bytes: &mut [u8]) {
    match limits.texts {
        Texts::Placed => poke_place(random, limits, bytes),
        Texts::Shared(_) if random.flag() => poke_area(random, limits, bytes),
        Texts::Shared(_) => {
            poke_units(random, limits, bytes);
            if random.percent(60) {
                fit_texts(limits, bytes);
            }
        }
    }
}

/// Mostly a slot in use of a table with texts, and the most units that a text has there.
fn text_slot(random: &mut Random, limits: Limits, bytes: &[u8]) -> (usize, usize, usize) {
    let tables = limits.regions().with_texts();
    let mut found = (0, 0, 0);
    for _ in 0..8 {
        let table = random.below(tables.len());
        let slots = tables[table];
        let at = slots.slot(random.below(slots.places));
        found = (at, slots.width, if table == 0 { QUICK_TEXT } else { SHORT_TEXT });
        if bytes[at..at + slots.width].iter().any(|&byte| byte != 0) {
            break;
        }
    }
    found
}

/// A unit of a text, or behind it, becomes another, 0 too.
fn poke_place(random: &mut Random, limits: Limits, bytes: &mut [u8]) {
    let (at, width, most) = text_slot(random, limits, bytes);
    let unit = at + width - 2 * random.within(1..=most);
    let other = random.pick(&[[0, 0], [0, 0], [0, 1], [1, 0], [0x4E, 0x2D]]);
    bytes[unit..unit + 2].copy_from_slice(&other);
}

/// One slot says another number of units, or two exchange theirs, or one has a unit more and the other one fewer.
fn poke_units(random: &mut Random, limits: Limits, bytes: &mut [u8]) {
    let [(one, most), (other, _)] = [(); 2].map(|()| {
        let (at, width, most) = text_slot(random, limits, bytes);
        (at + width - 1, most)
    });
    match random.below(5) {
        0 => bytes.swap(one, other),
        1 => {
            bytes[one] = bytes[one].wrapping_add(1);
            bytes[other] = bytes[other].wrapping_sub(1);
        }
        2 => bytes[one] = bytes[one].wrapping_add(random.pick(&[1, 255])),
        3 => bytes[one] = random.pick(&[0, 1, most as u8, most as u8 + 1, 128, 255]),
        _ => bytes[one] = random.bits(8) as u8,
    }
}

/// A byte or a unit among the texts, just behind them, or anywhere up to the first spare byte; or all of them one on.
fn poke_area(random: &mut Random, limits: Limits, bytes: &mut [u8]) {
    let regions = limits.regions();
    let used = 2 * regions.units(bytes, &regions.with_texts());
    let length = regions.area.len();
    let area = &mut bytes[regions.area.start..=regions.area.end];
    let inside = random.below(used.max(2)) & !1;
    match random.below(6) {
        0 => area[inside..inside + 2].fill(0),
        1 => area[random.below(used.max(1))] = random.bits(8) as u8,
        2 => area[used] = random.pick(&[0, 1, 255]),
        3 => area[(used + 1).min(length)] = random.pick(&[0, 1, 255]),
        4 => area[random.within(used..=length)] = random.bits(8) as u8,
        _ => area[..length].rotate_right(random.pick(&[1, 2])),
    }
}
