//! The check of a store's bytes as firmware in plain Rust would have it: nothing allocated, and no byte looked at one by one where many will do. It says what
//! `super::is_store` says, which is the reading to trust; this one is what the archive is measured beside.

use super::regions::{Regions, Slots, CHANNEL, FIXED, LINE_HEAD, LINE_KEY, MEMBER_HEAD};
use crate::reference::limits::{Limits, Texts};
use crate::reference::tables::MOST_CONTACTS;
use crate::reference::texts::{QUICK_TEXT, SHORT_TEXT};

#[cfg(test)]
mod tests;

/// Bytes that are looked at before the next question whether to go on.
const RUN: usize = 256;

/// Whether bytes are those of some set of this kind.
pub fn is_store(bytes: &[u8], limits: Limits) -> bool {
    let regions = limits.regions();
    bytes.len() == limits.store
        && are_fixed(bytes)
        && match limits.texts {
            Texts::Placed => units::<Placed, 46, 33, 36, 52>(bytes, &regions).is_some(),
            Texts::Shared(_) => units::<Shared, 1, 2, 5, 21>(bytes, &regions)
                .is_some_and(|units| is_area(&bytes[regions.area.clone()], units)),
        }
        && is_clear(&bytes[regions.spare()..])
}

/// What a slot has of its text.
trait Form {
    /// How many units an area has of a text of at most so many; nothing where the bytes are no text.
    fn units(text: &[u8], most: usize) -> Option<usize>;
}

/// The units, and zeros behind the last.
struct Placed;

/// Their number.
struct Shared;

impl Form for Placed {
    fn units(text: &[u8], _: usize) -> Option<usize> {
        let pairs = text.chunks_exact(2).zip(text[2..].chunks_exact(2));
        let gaps = pairs.fold(false, |gap, (unit, next)| gap | (unit == [0, 0]) & (next != [0, 0]));
        (!gaps).then_some(0)
    }
}

impl Form for Shared {
    fn units(text: &[u8], most: usize) -> Option<usize> {
        let units = usize::from(text[0]);
        (units <= most).then_some(units)
    }
}

/// How many units an area has of all tables, whose slots have these bytes; nothing where one of them is no table.
fn units<
    F: Form,
    const QUICK: usize,
    const STATUS: usize,
    const MEMBER: usize,
    const LINE: usize,
>(
    bytes: &[u8],
    regions: &Regions,
) -> Option<usize> {
    let slots = all::<QUICK>(bytes, regions.quick_texts, |slot| F::units(slot, QUICK_TEXT))?
        + all::<STATUS>(bytes, regions.status_texts, status::<F, STATUS>)?
        + all::<MEMBER>(bytes, regions.groups, group::<F, MEMBER>)?
        + all::<MEMBER>(bytes, regions.individuals, individual::<F, MEMBER>)?
        + all::<LINE>(bytes, regions.line_slots, line::<F, LINE>)?;
    let lists = contacts::<MEMBER>(bytes, regions.group_contacts, group::<F, MEMBER>)?
        + contacts::<MEMBER>(bytes, regions.individual_contacts, individual::<F, MEMBER>)?
        + counted::<CHANNEL>(bytes, regions.channels, channel)?
        + counted::<LINE>(bytes, regions.lines, line::<F, LINE>)?;
    is_order::<LINE>(bytes, regions).then_some(slots + lists)
}

fn is_clear(bytes: &[u8]) -> bool {
    bytes.chunks(RUN).all(|run| run.iter().fold(0, |seen, byte| seen | byte) == 0)
}

fn are_fixed(bytes: &[u8]) -> bool {
    let (hash, key, home, system) =
        (&bytes[..11], &bytes[11..15], &bytes[15..19], &bytes[19..FIXED]);
    let is_hash = match hash[0] {
        0 => is_clear(hash),
        1 => is_clear(&hash[5..]),
        code => code == 2,
    };
    let is_key = match key[0] {
        0..16 => is_address(number(&key[1..])),
        16..32 => is_clear(&key[1..]),
        _ => false,
    };
    let is_home = number(&home[..2]) < 512 && number(&home[2..]) <= 806;
    let is_system = system[0] < 16 && system[2] >> 3 <= 8 && system[2] >> 1 & 3 != 3;
    is_hash && is_key && is_home && is_system
}

/// Bytes as a number, the first highest.
fn number(bytes: &[u8]) -> u32 {
    bytes.iter().fold(0, |number, &byte| number << 8 | u32::from(byte))
}

fn is_address(address: u32) -> bool {
    address >= 0x10_0000 && address & 0x7FFF != 0
}

fn status<F: Form, const WIDTH: usize>(slot: &[u8; WIDTH]) -> Option<usize> {
    (slot[0] == 1).then(|| F::units(&slot[1..], SHORT_TEXT)).flatten()
}

fn group<F: Form, const WIDTH: usize>(slot: &[u8; WIDTH]) -> Option<usize> {
    (slot[0] >= 64).then(|| member::<F, WIDTH>(slot)).flatten()
}

fn individual<F: Form, const WIDTH: usize>(slot: &[u8; WIDTH]) -> Option<usize> {
    (slot[0] < 16).then(|| member::<F, WIDTH>(slot)).flatten()
}

fn member<F: Form, const WIDTH: usize>(slot: &[u8; WIDTH]) -> Option<usize> {
    is_address(address(slot)).then(|| F::units(&slot[MEMBER_HEAD..], SHORT_TEXT)).flatten()
}

fn address<const WIDTH: usize>(slot: &[u8; WIDTH]) -> u32 {
    number(&slot[1..MEMBER_HEAD])
}

fn channel(slot: &[u8; CHANNEL]) -> Option<usize> {
    (241..=640).contains(&u16::from_be_bytes(*slot)).then_some(0)
}

fn line<F: Form, const WIDTH: usize>(slot: &[u8; WIDTH]) -> Option<usize> {
    let digits = &slot[2..LINE_HEAD];
    let high = digits.iter().fold(false, |high, &digit| high | (digit > 10));
    let pairs = digits.iter().zip(&digits[1..]);
    let gaps = pairs.fold(false, |gap, (&digit, &next)| gap | (digit == 0) & (next != 0));
    let is_head = slot[0] < 16 && slot[1] < 2 && digits[0] != 0 && !high && !gaps;
    is_head.then(|| F::units(&slot[LINE_HEAD..], SHORT_TEXT)).flatten()
}

fn each<const WIDTH: usize>(bytes: &[u8]) -> impl Iterator<Item = &[u8; WIDTH]> {
    bytes.chunks_exact(WIDTH).map(|slot| slot.try_into().expect("a chunk is exact"))
}

/// The units of a table by index or code: every slot is empty or an entry.
fn all<const WIDTH: usize>(
    bytes: &[u8],
    slots: Slots,
    units: impl Fn(&[u8; WIDTH]) -> Option<usize>,
) -> Option<usize> {
    let of = |slot| if slot == &[0; WIDTH] { Some(0) } else { units(slot) };
    each(slots.of(bytes)).try_fold(0, |sum, slot| Some(sum + of(slot)?))
}

/// The units of a list: a count, as many entries, and then nothing.
fn counted<const WIDTH: usize>(
    bytes: &[u8],
    slots: Slots,
    units: impl Fn(&[u8; WIDTH]) -> Option<usize>,
) -> Option<usize> {
    let count = usize::from(slots.count(bytes));
    let (used, rest) = slots.of(bytes).split_at_checked(count * WIDTH)?;
    let sum = each(used).try_fold(0, |sum, slot| Some(sum + units(slot)?))?;
    is_clear(rest).then_some(sum)
}

/// The same of contacts, no two of which have one address.
fn contacts<const WIDTH: usize>(
    bytes: &[u8],
    slots: Slots,
    units: impl Fn(&[u8; WIDTH]) -> Option<usize>,
) -> Option<usize> {
    let sum = counted(bytes, slots, units)?;
    let mut addresses = [0; MOST_CONTACTS];
    let count = usize::from(slots.count(bytes));
    for (place, slot) in addresses.iter_mut().zip(each::<WIDTH>(slots.of(bytes))).take(count) {
        *place = address(slot);
    }
    addresses[..count].sort_unstable();
    let differ = addresses[..count].windows(2).all(|pair| pair[0] != pair[1]);
    differ.then_some(sum)
}

/// As many names of lines as are counted, the key of each before the next one's, so that none is named twice; then zeros only.
fn is_order<const WIDTH: usize>(bytes: &[u8], regions: &Regions) -> bool {
    let lines = regions.lines;
    let count = usize::from(lines.count(bytes));
    let (names, rest) = bytes[regions.order.clone()].split_at(count);
    let slots = &lines.of(bytes)[..count * WIDTH];
    let key = |name: u8| {
        let start = usize::from(name).checked_sub(1)? * WIDTH;
        slots.get(start..start + LINE_HEAD).map(line_key)
    };
    let ordered =
        |pair: &[u8]| key(pair[0]).zip(key(pair[1])).is_some_and(|(one, next)| one < next);
    let is_named = names.iter().all(|&name| key(name).is_some());
    is_named && names.windows(2).all(ordered) && is_clear(rest)
}

/// The 19 bytes of a line's key as two numbers that compare as they do; one byte stands in both.
fn line_key(head: &[u8]) -> (u128, u32) {
    let key = &head[LINE_KEY];
    let first = key.first_chunk().expect("19 bytes are more than 16");
    let last = key.last_chunk().expect("19 bytes are more than 4");
    (u128::from_be_bytes(*first), u32::from_be_bytes(*last))
}

/// So many units, none of them 0, and then zeros only.
fn is_area(area: &[u8], units: usize) -> bool {
    let is_full = |run: &[u8]| !run.chunks_exact(2).fold(false, |end, unit| end | (unit == [0, 0]));
    area.split_at_checked(2 * units)
        .is_some_and(|(texts, rest)| texts.chunks(RUN).all(is_full) && is_clear(rest))
}
