//! Requests as long as a set's messages may be, each full of one kind of setting.
//!
//! Committed twice, each leaves what it left the first time, so that every repetition starts from the same store.

pub mod growing;
pub mod small;

use otap::REPLY_ROOM;
use otap_reference::reference::commit::commit;
use otap_reference::reference::limits::{Limits, Texts, HANDHELD};
use otap_reference::reference::message::{query, request, request_as, Hash};
use otap_reference::reference::plan::{GroupAddress, IndividualAddress};
use otap_reference::reference::settings::{
    ContactEntry, EmergencyKey, GroupFlags, GroupSlot, HomeNumbers, IndividualFlags,
    IndividualSlot, LastItem, Line, LineEntry, LineFlags, Operation, Setting, SystemCode,
    TextEntry,
};
use otap_reference::reference::tables::Set;
use otap_reference::reference::texts::{Coding, Text};

const HASH: Hash = Hash::Stamped([1, 2, 3, 4, 5, 6, 7, 8, 9, 10]);
const HEAD: usize = 8;
/// The most entries that a setting counts, and those of a setting of quick texts.
const MOST_ENTRIES: usize = 255;
const MOST_QUICK: usize = 63;

/// The most units of a text, in quick texts and in others.
const LONGEST: Units = Units { quick: 23, short: 16 };

/// Units of a full store's texts: of quick texts, and of all others.
struct Units {
    quick: usize,
    short: usize,
}

/// As many as a text may have; where all share an area, 64 x 13 and 304 x 4, which fill it when every row has a text.
fn units(limits: Limits) -> Units {
    match limits.texts {
        Texts::Placed => LONGEST,
        Texts::Shared(_) => Units { quick: 13, short: 4 },
    }
}

fn short(limits: Limits) -> usize {
    units(limits).short
}

/// A name for each kind, and a hand-held's request full of it, status texts under 0100 too; at the end those with the most to look for.
pub fn of_each_kind() -> Vec<(&'static str, Vec<u8>)> {
    vec![
        ("lines", of_lines(HANDHELD)),
        ("emergency-key", full(|count| repeated(count, key()))),
        ("quick-texts", full(|count| quick_texts(HANDHELD, count))),
        ("home-numbers", full(|count| repeated(count, home()))),
        ("channels", of_channels(HANDHELD)),
        ("system-code", full(|count| repeated(count, system()))),
        ("status-texts", full(|count| status_texts(HANDHELD, count))),
        ("status-texts-8", full_as(HANDHELD, Coding::Eight, narrow_status_texts)),
        ("status-texts-each", full(each_status_text)),
        ("groups", of_groups(short(HANDHELD))),
        ("individuals", full(|count| slots(count, short(HANDHELD), individual))),
        ("group-contacts", full(|count| group_contacts(HANDHELD, count))),
        ("individual-contacts", full(|count| individual_contacts(HANDHELD, count))),
        ("line-slots", full(|count| slots(count, short(HANDHELD), line_slot))),
        ("last-item", of_last_item()),
        ("lines-deleted", deleted_lines()),
        ("channels-deleted", deleted_channels()),
        ("contacts-deleted", deleted_contacts()),
    ]
}

/// Those that a vehicle is measured with too.
pub fn of_a_vehicle(limits: Limits) -> [(&'static str, Vec<u8>); 3] {
    [("lines", of_lines(limits)), ("channels", of_channels(limits)), ("last-item", of_last_item())]
}

/// A request full of lines.
pub fn of_lines(limits: Limits) -> Vec<u8> {
    full_as(limits, Coding::Unicode, |count| lines(limits, count))
}

fn of_channels(limits: Limits) -> Vec<u8> {
    full_as(limits, Coding::Unicode, |count| channels(limits, count))
}

fn of_last_item() -> Vec<u8> {
    request(&[last()])
}

fn of_groups(units: usize) -> Vec<u8> {
    full(|count| slots(count, units, group))
}

/// A request full of groups, and two that are this one when joined. Joining knows no store, so that their texts are the longest.
pub fn groups_and_halves() -> (Vec<u8>, [Vec<u8>; 2]) {
    let full = of_groups(LONGEST.short);
    let settings = slots(full[HEAD - 1].into(), LONGEST.short, group);
    let (first, second) = settings.split_at(settings.len() / 2);
    (full, [request(first), request(second)])
}

/// As the request full of groups, with a fault in the last one.
pub fn refused() -> Vec<u8> {
    let mut message = of_groups(short(HANDHELD));
    let operation = message.len() - group(0, short(HANDHELD)).len() + 3;
    // Attribute 00 is out of range.
    message[operation] &= 0b1100_1111;
    message
}

pub fn matching_query() -> Vec<u8> {
    query(&HASH)
}

/// What fills every table; the last row but one of lines, groups and individuals, in slots and among the contacts, has no text.
pub fn filling(limits: Limits) -> Vec<Vec<u8>> {
    let nameless_slots = |of: Slot| {
        let mut settings = slots(16, short(limits), of);
        settings[14] = of(14, 0);
        settings
    };
    let (group_contact, individual_contact) = nameless_contacts();
    let nameless = line_setting(Operation::Add, vec![line(limits.lines - 2, 0)]);
    vec![
        request(&[lines(limits, limits.lines), vec![nameless]].concat()),
        request(&quick_texts(limits, 64)),
        request(&status_texts(limits, 96)),
        request(&[group, individual, line_slot].map(nameless_slots).concat()),
        request(&[group_contacts(limits, 64), vec![group_contact]].concat()),
        request(&[individual_contacts(limits, 64), vec![individual_contact]].concat()),
        request(&[channels(limits, 1), vec![key().write(), system().write(), last()]].concat()),
    ]
}

/// The tables of a full store.
pub fn full_set(limits: Limits) -> Set {
    let mut set = Set::fresh(limits);
    for message in filling(limits) {
        assert_eq!(commit(&message, &mut set, &mut [0; REPLY_ROOM]).number, 0);
    }
    set
}

/// What empties the list of lines.
pub fn without_lines() -> Vec<u8> {
    request(&[line_setting(Operation::Replace, Vec::new())])
}

/// What empties both lists of contacts.
pub fn without_contacts() -> Vec<u8> {
    request(&[
        group_contact_setting(Operation::Replace, Vec::new()),
        individual_contact_setting(Operation::Replace, Vec::new()),
    ])
}

/// Who calls a full store: its last line, and a number that comes close to all of them and is none.
pub fn callers(limits: Limits) -> [(&'static str, Vec<u8>, Option<u32>); 2] {
    let last = limits.lines - 1;
    [("found", line(last, 0).digits, Some(last as u32)), ("none", line(last + 46, 0).digits, None)]
}

fn full(settings: impl Fn(usize) -> Vec<Vec<u8>>) -> Vec<u8> {
    full_as(HANDHELD, Coding::Unicode, settings)
}

/// The largest request that a count gives within a message and 255 settings, found by halving.
fn full_as(limits: Limits, coding: Coding, settings: impl Fn(usize) -> Vec<Vec<u8>>) -> Vec<u8> {
    let fits = |count| {
        let settings = settings(count);
        let size = HEAD + settings.iter().map(Vec::len).sum::<usize>();
        settings.len() <= 255 && size <= limits.message
    };
    let (mut good, mut bad) = (1, limits.message);
    while bad - good > 1 {
        let middle = (good + bad) / 2;
        if fits(middle) {
            good = middle;
        } else {
            bad = middle;
        }
    }
    request_as(coding, &settings(good))
}

fn repeated(count: usize, setting: Setting) -> Vec<Vec<u8>> {
    vec![setting.write(); count]
}

/// A setting of a slot, by its place and the units of its text.
type Slot = fn(usize, usize) -> Vec<u8>;

/// So many settings of slots, one after another.
fn slots(count: usize, units: usize, of: Slot) -> Vec<Vec<u8>> {
    (0..count).map(|place| of(place, units)).collect()
}

/// A replace of as many entries as a setting counts, and adds of the others.
fn in_settings<E: Clone>(
    entries: &[E],
    most: usize,
    setting: impl Fn(Operation, Vec<E>) -> Vec<u8>,
) -> Vec<Vec<u8>> {
    let operation = |place| if place == 0 { Operation::Replace } else { Operation::Add };
    let chunks = (0..).zip(entries.chunks(most));
    chunks.map(|(place, chunk)| setting(operation(place), chunk.to_vec())).collect()
}

fn text(length: usize) -> Text {
    (0..length).map(|place| 0x4E00 + place as u16).collect()
}

/// Eighteen digits, of which the last two tell a hand-held's numbers apart, and the last three a vehicle's.
fn line(place: usize, units: usize) -> LineEntry {
    let mut digits = vec![7; 18];
    digits[15] += (place / 100) as u8;
    digits[16] = (place / 10 % 10) as u8;
    digits[17] = (place % 10) as u8;
    LineEntry { digits, text: text(units) }
}

fn line_setting(operation: Operation, entries: Vec<LineEntry>) -> Vec<u8> {
    Setting::Lines { operation, flags: LineFlags::default(), entries }.write()
}

/// As many numbers as there is room for, and those again.
fn lines(limits: Limits, count: usize) -> Vec<Vec<u8>> {
    let entry = |place| line(place % limits.lines, short(limits));
    in_settings(&(0..count).map(entry).collect::<Vec<_>>(), MOST_ENTRIES, line_setting)
}

/// As many deletes as fit of a number that comes close to all 32 and is none of them.
fn deleted_lines() -> Vec<u8> {
    let absent = LineEntry { digits: vec![7; 18], text: Text::new() };
    let settings =
        [255, 84].map(|count| line_setting(Operation::Delete, vec![absent.clone(); count]));
    request(&settings)
}

/// As many deletes as fit of a channel that is not there.
fn deleted_channels() -> Vec<u8> {
    let setting =
        |count| Setting::Channels { operation: Operation::Delete, channels: vec![640; count] };
    request(&[1_023, 1_023, 668].map(|count| setting(count).write()))
}

fn key() -> Setting {
    Setting::Emergency(EmergencyKey { address: Some(0x10_0001), ..EmergencyKey::default() })
}

fn home() -> Setting {
    Setting::Home(HomeNumbers { nzi: 15, np: 806 })
}

fn system() -> Setting {
    Setting::System(SystemCode { lai: 0x123, la: 8, roaming: 2, par: true })
}

fn quick_texts(limits: Limits, count: usize) -> Vec<Vec<u8>> {
    let text = text(units(limits).quick);
    let entry = |place| TextEntry { key: (place % 64) as u8, text: text.clone() };
    in_settings(&(0..count).map(entry).collect::<Vec<_>>(), MOST_QUICK, |operation, entries| {
        Setting::QuickTexts { operation, entries }.write()
    })
}

/// Replaces of as many channels each as there is room for.
fn channels(limits: Limits, count: usize) -> Vec<Vec<u8>> {
    let channels = (0..limits.channels as u16).map(|place| 241 + place % 64 * 6).collect();
    repeated(count, Setting::Channels { operation: Operation::Replace, channels })
}

/// The same text for each code.
fn status_entries(count: usize, text: Text) -> Vec<TextEntry> {
    let entry = |place| TextEntry { key: 32 + (place % 96) as u8, text: text.clone() };
    (0..count).map(entry).collect()
}

fn status_setting(operation: Operation, entries: Vec<TextEntry>, coding: Coding) -> Vec<u8> {
    let setting = Setting::StatusTexts { operation, entries };
    setting.write_as(coding).expect("under 0100 every unit is below 256")
}

fn status_texts(limits: Limits, count: usize) -> Vec<Vec<u8>> {
    let entries = status_entries(count, text(short(limits)));
    in_settings(&entries, MOST_ENTRIES, |operation, entries| {
        status_setting(operation, entries, Coding::Unicode)
    })
}

/// The same of eight-bit characters, written so.
fn narrow_status_texts(count: usize) -> Vec<Vec<u8>> {
    let entries = status_entries(count, (0xC0..).take(short(HANDHELD)).collect());
    in_settings(&entries, MOST_ENTRIES, |operation, entries| {
        status_setting(operation, entries, Coding::Eight)
    })
}

/// A setting for each text: after every one the sum of all texts is judged.
fn each_status_text(count: usize) -> Vec<Vec<u8>> {
    let entries = status_entries(count, text(short(HANDHELD)));
    let setting = |entry| status_setting(Operation::Add, vec![entry], Coding::Unicode);
    entries.into_iter().map(setting).collect()
}

fn group(place: usize, units: usize) -> Vec<u8> {
    let slot = GroupSlot {
        attribute: 2,
        broadcast: false,
        encryption: true,
        ovcm: false,
        emergency: true,
        priority: 2,
        address: GroupAddress(0x10_0001 + place as u32 % 16),
        text: text(units),
    };
    Setting::Group { index: place as u8 % 16, slot: Some(slot) }.write()
}

fn individual(place: usize, units: usize) -> Vec<u8> {
    let slot = IndividualSlot {
        encryption: true,
        emergency: false,
        priority: 1,
        address: IndividualAddress(0x10_0001 + place as u32 % 16),
        text: text(units),
    };
    Setting::Individual { index: place as u8 % 16, slot: Some(slot) }.write()
}

/// One of 64 addresses, which differ in their last byte alone and neither rise nor fall.
fn contact<A>(place: usize, units: usize, kind: fn(u32) -> A) -> ContactEntry<A> {
    ContactEntry { address: kind(0x10_0001 + place as u32 * 37 % 64), text: text(units) }
}

fn group_contact_setting(
    operation: Operation,
    entries: Vec<ContactEntry<GroupAddress>>,
) -> Vec<u8> {
    let flags = GroupFlags { attribute: 2, encryption: true, priority: 2, ..GroupFlags::default() };
    Setting::GroupContacts { operation, flags, entries }.write()
}

fn individual_contact_setting(
    operation: Operation,
    entries: Vec<ContactEntry<IndividualAddress>>,
) -> Vec<u8> {
    let flags = IndividualFlags { encryption: true, emergency: false, priority: 1 };
    Setting::IndividualContacts { operation, flags, entries }.write()
}

fn contacts<A>(limits: Limits, count: usize, kind: fn(u32) -> A) -> Vec<ContactEntry<A>> {
    (0..count).map(|place| contact(place, short(limits), kind)).collect()
}

fn group_contacts(limits: Limits, count: usize) -> Vec<Vec<u8>> {
    in_settings(&contacts(limits, count, GroupAddress), MOST_ENTRIES, group_contact_setting)
}

fn individual_contacts(limits: Limits, count: usize) -> Vec<Vec<u8>> {
    let entries = contacts(limits, count, IndividualAddress);
    in_settings(&entries, MOST_ENTRIES, individual_contact_setting)
}

/// The last contact but one of either list, overwritten without a text.
fn nameless_contacts() -> (Vec<u8>, Vec<u8>) {
    let group = group_contact_setting(Operation::Add, vec![contact(62, 0, GroupAddress)]);
    let individual =
        individual_contact_setting(Operation::Add, vec![contact(62, 0, IndividualAddress)]);
    (group, individual)
}

/// As many deletes as fit of a group that comes close to all 64 and is none of them.
fn deleted_contacts() -> Vec<u8> {
    let absent = ContactEntry { address: GroupAddress(0x10_0080), text: Text::new() };
    let settings = [255, 255, 255, 47]
        .map(|count| group_contact_setting(Operation::Delete, vec![absent.clone(); count]));
    request(&settings)
}

fn line_slot(place: usize, units: usize) -> Vec<u8> {
    let LineEntry { digits, text } = line(place % 16, units);
    let flags = LineFlags { emergency: true, priority: 1, pabx: true, ..LineFlags::default() };
    let slot = Some(Line { digits, flags, text });
    Setting::LineSlot { index: place as u8 % 16, slot }.write()
}

fn last() -> Vec<u8> {
    Setting::Last(LastItem { reboot: false, reply: true, hash: HASH }).write()
}
