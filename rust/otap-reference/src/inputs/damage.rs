//! Requests damaged in one place, at times in two.

use super::draft::{restate, Draft};
use super::maker::{slipped, Maker, Size, TYPES};
use super::random::Random;
use crate::reference::tables::Set;
use crate::reference::texts::Coding;

/// Types that no setting has, some of them close to one.
pub const UNKNOWN_TYPES: [u8; 9] = [0x00, 0xC7, 0xD4, 0xD5, 0xD6, 0xFE, 0x88, 0xC0, 0x4A];

pub fn damaged(random: &mut Random, set: &Set, mut draft: Draft) -> Vec<u8> {
    for _ in 0..random.pick(&[0, 1, 1, 1, 1, 2]) {
        damage_draft(random, set, &mut draft);
    }
    let mut message = draft.bytes();
    if random.percent(25) {
        damage_bytes(random, set, draft.coding, &mut message);
    }
    message
}

fn damage_draft(random: &mut Random, set: &Set, draft: &mut Draft) {
    let place = random.below(draft.settings.len());
    match random.below(18) {
        0 => data_length(random, draft, place),
        1 => sum(random, draft),
        2 => count(random, &mut draft.settings[place]),
        3 => last_early(random, set, draft),
        4..=10 => out_of_range(random, set, draft),
        11 | 12 => unknown_type(random, draft, place),
        13 => padded(random, &mut draft.settings[place]),
        14 => unended(random, &mut draft.settings[place]),
        15 => other_coding(random, set, draft, place),
        _ => coding_byte(random, &mut draft.coding_byte),
    }
}

fn damage_bytes(random: &mut Random, set: &Set, coding: Coding, message: &mut Vec<u8>) {
    let place = random.within(6..=message.len() - 1);
    match random.below(6) {
        0 => message[place] = random.bits(8) as u8,
        1 => message[place] ^= 1 << random.below(8),
        2 => {
            let any = random.below(message.len());
            message[any] ^= 1 << random.below(8);
        }
        3 => {
            message.truncate(place);
            restate(random, message);
        }
        4 => {
            message.extend(random.bytes_up_to(20));
            restate(random, message);
        }
        _ => {
            // What is left over may look like a setting.
            message.extend(Maker { random, set, coding, slip_after: None }.any(Size::Small));
            restate(random, message);
        }
    }
}

fn data_length(random: &mut Random, draft: &mut Draft, place: usize) {
    let following = draft.settings.get(place + 1).map_or(3, Vec::len) as u16;
    let setting = &mut draft.settings[place];
    // An earlier damage may have left only a type byte.
    setting.resize(setting.len().max(3), 0);
    let truth = u16::from_be_bytes([setting[1], setting[2]]);
    let wrong = match random.below(8) {
        0 => truth.wrapping_add(1),
        1 => truth.wrapping_sub(1),
        2 => truth.wrapping_add(2),
        3 => truth.wrapping_sub(2),
        4 => 0,
        5 => truth.swap_bytes(),
        6 => truth.wrapping_add(following),
        _ => random.bits(16) as u16,
    };
    setting[1..3].copy_from_slice(&wrong.to_be_bytes());
}

fn sum(random: &mut Random, draft: &mut Draft) {
    let truth = draft.settings.len() as u8;
    let wrong = [truth.wrapping_add(1), truth.wrapping_sub(1), 0, 255, random.bits(8) as u8];
    draft.sum = Some(random.pick(&wrong));
}

/// Where a setting has a Count, it stands in the second byte of its fields, of quick texts in the first, of group contacts in the third.
fn count(random: &mut Random, setting: &mut [u8]) {
    let place = match setting[0] {
        0xCC => 3,
        0xC8 => 5,
        _ => 4,
    };
    let place = place.min(setting.len() - 1);
    let step = random.pick(&[1, 255, 2, 254]);
    setting[place] = setting[place].wrapping_add(step);
}

fn last_early(random: &mut Random, set: &Set, draft: &mut Draft) {
    let place = random.below(draft.settings.len());
    let last = Maker { random, set, coding: draft.coding, slip_after: None }.last();
    draft.settings.insert(place, last);
    draft.settings.truncate(255);
}

fn out_of_range(random: &mut Random, set: &Set, draft: &mut Draft) {
    let place = random.below(draft.settings.len());
    let is_last = place + 1 == draft.settings.len();
    let kind = if is_last && random.percent(20) { 0xFF } else { random.pick(&TYPES) };
    let make = |maker: &mut Maker| maker.of_type(kind, Size::Small);
    draft.settings[place] = slipped(random, set, draft.coding, make);
}

fn unknown_type(random: &mut Random, draft: &mut Draft, place: usize) {
    let unknown = random.pick(&UNKNOWN_TYPES);
    match random.below(3) {
        0 => draft.settings[place] = vec![unknown],
        1 => {
            draft.settings.push(vec![unknown]);
            draft.settings.truncate(255);
        }
        _ => draft.settings[place][0] = unknown,
    }
}

/// A setting whose texts are written in the other coding type, its DataLength true for that one.
fn other_coding(random: &mut Random, set: &Set, draft: &mut Draft, place: usize) {
    let coding = match draft.coding {
        Coding::Eight => Coding::Unicode,
        Coding::Unicode => Coding::Eight,
    };
    let kind = random.pick(&[0xC8, 0xC9, 0xCA, 0xCC, 0xD0, 0xD1, 0xD2, 0xD3]);
    let mut maker = Maker { random, set, coding, slip_after: None };
    draft.settings[place] = maker.of_type(kind, Size::Small);
}

/// The other coding type, one bit off, any of the sixteen, or reserved bits, which must not matter.
fn coding_byte(random: &mut Random, byte: &mut u8) {
    match random.below(4) {
        0 => *byte ^= Coding::Eight.number() ^ Coding::Unicode.number(),
        1 => *byte ^= 1 << random.below(4),
        2 => *byte = random.bits(8) as u8,
        _ => *byte |= (random.bits(4) as u8) << 4,
    }
}

/// More bytes than the fields take, with a DataLength that owns up to them.
fn padded(random: &mut Random, setting: &mut Vec<u8>) {
    setting.extend(random.bytes_up_to(4));
    own_length(setting);
}

/// A setting that breaks off, with a DataLength that owns up to it.
fn unended(random: &mut Random, setting: &mut Vec<u8>) {
    let gone = random.pick(&[1, 1, 2, 2, 3]).min(setting.len() - 1);
    setting.truncate(setting.len() - gone);
    own_length(setting);
}

fn own_length(setting: &mut [u8]) {
    if setting.len() >= 3 {
        let length = setting.len() as u16 - 1;
        setting[1..3].copy_from_slice(&length.to_be_bytes());
    }
}
