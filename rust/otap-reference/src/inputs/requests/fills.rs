//! Requests that fill a table to its last place, or by one entry more than there is room for.

use super::maker;
use crate::inputs::draft::Draft;
use crate::inputs::maker::lines::LineKey;
use crate::inputs::maker::Size;
use crate::inputs::random::Random;
use crate::reference::tables::{Line, Set, MOST_CONTACTS, QUICK_TEXTS};

/// Deletes some lines and adds as many new ones as then fit, of both IDtypes, at times one more.
pub fn lines(random: &mut Random, set: &Set) -> Draft {
    let mut draft = Draft::new(random, set.limits);
    let deleted = if random.flag() { 0 } else { random.below(set.tables.lines.len() + 1) };
    let (gone, kept) = set.tables.lines.split_at(deleted);
    if deleted > 0 {
        let gone = gone.iter().map(key_of).collect();
        draft.settings.extend(maker(random, set, &draft).delete_lines(gone));
    }
    let free = set.limits.lines - kept.len();
    let new = match random.below(4) {
        0 => free + 1,
        1 => free.saturating_sub(random.below(4)),
        _ => free,
    };
    let mut keys = maker(random, set, &draft).new_keys(kept, new);
    // Lines still there need no new place, wherever they stand among the new ones.
    for line in kept {
        if random.percent(20) {
            keys.insert(random.below(keys.len() + 1), key_of(line));
        }
    }
    for setting in maker(random, set, &draft).add_lines(keys) {
        draft.push_if_room(setting);
    }
    finish(random, set, draft)
}

fn key_of(line: &Line) -> LineKey {
    (line.flags.pabx, line.digits.clone())
}

pub fn channels(random: &mut Random, set: &Set) -> Draft {
    let mut draft = Draft::new(random, set.limits);
    let mut kept = set.tables.channels.clone();
    if !kept.is_empty() && random.flag() {
        let gone = random.pick(&kept);
        kept.retain(|&channel| channel != gone);
        draft.settings.push(maker(random, set, &draft).delete_channel(gone));
    }
    let free = set.limits.channels - kept.len();
    let new = match random.below(4) {
        0 => free + 1,
        1 => free / 2,
        _ => free,
    };
    draft.settings.push(maker(random, set, &draft).add_channels(new));
    finish(random, set, draft)
}

/// Adds a quick text to every index, by as many settings as a Count of 6 bits needs.
pub fn quick_texts(random: &mut Random, set: &Set) -> Draft {
    let mut draft = Draft::new(random, set.limits);
    let first = random.below(QUICK_TEXTS);
    let indexes: Vec<usize> = (first..QUICK_TEXTS).chain(0..first).collect();
    for some in indexes.chunks(random.within(1..=QUICK_TEXTS - 1)) {
        draft.push_if_room(maker(random, set, &draft).add_quick_texts(some));
    }
    finish(random, set, draft)
}

/// Deletes some contacts of a type and adds as many new ones as then fit, at times one more; or replaces all of them.
pub fn contacts(random: &mut Random, set: &Set, kind: u8) -> Draft {
    let mut draft = Draft::new(random, set.limits);
    let known = maker(random, set, &draft).known_addresses(kind);
    let replaced = random.percent(25);
    let deleted = match random.below(4) {
        _ if replaced => known.len(),
        0 | 1 => 0,
        _ => random.below(known.len() + 1),
    };
    // From anywhere in the list, so that those behind move up.
    let first = random.within(0..=known.len() - deleted);
    let (gone, mut kept) = (known[first..first + deleted].to_vec(), known);
    kept.drain(first..first + deleted);
    let free = MOST_CONTACTS - kept.len();
    let new = match random.below(4) {
        0 => free + 1,
        1 => free.saturating_sub(random.below(4)),
        _ => free,
    };
    let mut addresses = maker(random, set, &draft).new_addresses(kind, &kept, new);
    // Contacts still there need no new place, wherever they stand among the new ones, and nor do repeated ones.
    for again in [kept, addresses.clone()].concat() {
        if random.percent(10) {
            let first = addresses.iter().position(|&address| address == again);
            let place = random.within(first.map_or(0, |first| first + 1)..=addresses.len());
            addresses.insert(place, again);
        }
    }
    let mut maker = maker(random, set, &draft);
    if replaced {
        draft.settings.push(maker.replace_contacts(kind, &addresses));
    } else {
        draft.settings.push(maker.delete_contacts(kind, &gone));
        maker.add_contacts(kind, &addresses).into_iter().for_each(|add| draft.push_if_room(add));
    }
    finish(random, set, draft)
}

fn finish(random: &mut Random, set: &Set, mut draft: Draft) -> Draft {
    for _ in 0..random.pick(&[0, 0, 1, 2]) {
        draft.push_if_room(maker(random, set, &draft).any(Size::Small));
    }
    if random.percent(60) {
        draft.push_if_room(maker(random, set, &draft).last());
    }
    draft
}
