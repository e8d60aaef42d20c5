//! What the rules say of one set's export that another is to take: worked out by counting, without taking any of it.

use otap_reference::reference::export::{part_bytes, PARTS};
use otap_reference::reference::limits::Texts;
use otap_reference::reference::tables::{Set, Tables};
use otap_reference::reference::texts::Text;

/// A part that is not taken: its number, and the number and failed ID of the answer.
pub type Stopped = Option<(u32, u8, u8)>;

/// The parts with texts, with the tables in the order of the rows.
const WITH_TEXTS: [u8; 8] = [1, 3, 5, 6, 7, 8, 9, 10];

/// The first part of one set's export that is over the other's message size, or that has a setting without room there.
pub fn foreseen(from: &Set, to: &Set) -> Stopped {
    (1..=PARTS).find_map(|part| {
        let request = part_bytes(part, from).expect("a part");
        let stopped = if request.len() > to.limits.message {
            Some((12, 0))
        } else {
            let failed = [full_at(part, from, to), over_at(part, from, to)];
            failed.into_iter().flatten().min().map(|failed| (2, failed as u8))
        };
        stopped.map(|(number, failed)| (part.into(), number, failed))
    })
}

/// The setting that finds its table full: behind a replace and as many adds as have a place, or the one that has all channels.
fn full_at(part: u8, from: &Set, to: &Set) -> Option<usize> {
    let (lines, channels) = from.counts();
    match part {
        1 => (lines > to.limits.lines).then_some(to.limits.lines + 2),
        4 => (channels > to.limits.channels).then_some(1),
        _ => None,
    }
}

/// The first setting after which the texts pass the area: those of the parts before are one set's by then, those of the parts behind still the other's.
fn over_at(part: u8, from: &Set, to: &Set) -> Option<usize> {
    let Texts::Shared(area) = to.limits.texts else { return None };
    let others = WITH_TEXTS.iter().filter(|&&other| other != part);
    let others: usize = others
        .map(|&other| {
            let set = if other < part { from } else { to };
            rows(other, &set.tables).iter().sum::<usize>()
        })
        .sum();
    let own = after_each(part, &rows(part, &from.tables), &rows(part, &to.tables));
    own.iter().position(|own| others + own > area).map(|place| place + 1)
}

/// The bytes of a table's texts after each setting of its part, by those of its rows in both sets.
fn after_each(part: u8, from: &[usize], to: &[usize]) -> Vec<usize> {
    let first = |count: usize| from[..count].iter().sum::<usize>();
    match part {
        // A replace of none, and an add for each entry.
        1 | 8 | 9 => (0..=from.len()).map(first).collect(),
        // A replace of the first 63, and an add of the last.
        3 => [from.len().min(63), from.len()].map(first).to_vec(),
        5 => vec![first(from.len())],
        // Slot by slot.
        6 | 7 | 10 => {
            (1..=from.len()).map(|at| first(at) + to[at..].iter().sum::<usize>()).collect()
        }
        _ => Vec::new(),
    }
}

/// The bytes of the texts of a part's table, row by row; a slot without one has none.
fn rows(part: u8, tables: &Tables) -> Vec<usize> {
    let bytes = |text: &Text| 2 * text.len();
    let held = |texts: &[Option<Text>]| texts.iter().flatten().map(bytes).collect();
    match part {
        1 => tables.lines.iter().map(|line| bytes(&line.text)).collect(),
        3 => held(&tables.quick_texts),
        5 => held(&tables.status_texts),
        6 => in_slots(&tables.groups, |group| bytes(&group.text)),
        7 => in_slots(&tables.individuals, |individual| bytes(&individual.text)),
        8 => tables.group_contacts.iter().map(|group| bytes(&group.text)).collect(),
        9 => tables.individual_contacts.iter().map(|one| bytes(&one.text)).collect(),
        10 => in_slots(&tables.line_slots, |line| bytes(&line.text)),
        _ => Vec::new(),
    }
}

fn in_slots<T>(slots: &[Option<T>], bytes: impl Fn(&T) -> usize) -> Vec<usize> {
    slots.iter().map(|slot| slot.as_ref().map_or(0, &bytes)).collect()
}
