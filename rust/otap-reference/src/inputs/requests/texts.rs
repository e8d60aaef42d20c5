//! Requests with long texts, which fill a shared area to its last unit or by one more; and such as pass it only within a setting.

use crate::inputs::draft::Draft;
use crate::inputs::random::Random;
use crate::reference::limits::{Limits, Texts};
use crate::reference::plan::{GroupAddress, IndividualAddress};
use crate::reference::settings::{
    ContactEntry, GroupFlags, IndividualFlags, Line, LineEntry, LineFlags, Operation, Setting,
    TextEntry,
};
use crate::reference::tables::{
    Set, Tables, FIRST_STATUS, MOST_CONTACTS, QUICK_TEXTS, SLOTS, STATUS_TEXTS,
};
use crate::reference::texts::{Coding, Text, QUICK_TEXT, SHORT_TEXT};

/// More settings than most requests have.
const MANY: usize = 120;

/// The setting that puts a text where it is to stand.
type Putting = Box<dyn Fn(Text) -> Setting>;

/// That, and the most units that a text has there.
struct Place {
    most: usize,
    setting: Putting,
}

/// A request as it grows, and the tables after it, which have a place for each text.
struct Filling<'a> {
    random: &'a mut Random,
    draft: Draft,
    limits: Limits,
    tables: Tables,
}

/// Puts texts until the area is full, or as far as one request goes; where no sum binds the set, long ones.
pub fn fill(random: &mut Random, set: &Set) -> Draft {
    let draft = Draft::new(random, set.limits);
    let limits = Limits { texts: Texts::Placed, ..set.limits };
    let mut filling = Filling { random, draft, limits, tables: set.tables.clone() };
    let area = match set.limits.texts {
        Texts::Placed => usize::MAX,
        Texts::Shared(area) => area,
    };
    if filling.random.percent(25) {
        filling.free();
    }
    let settings = filling.random.pick(&[1, 3, 20, MANY, MANY]);
    for _ in 0..settings {
        if filling.tables.text_bytes() < area {
            filling.put(area);
        }
    }
    filling.end(area);
    filling.draft
}

impl Filling<'_> {
    /// Writes a setting to the request, if that has room for its bytes, and does to the tables what it says.
    fn push(&mut self, setting: Setting) {
        let written = setting.write_as(self.draft.coding).expect("units are of the coding type");
        let before = self.draft.settings.len();
        self.draft.push_if_room(written);
        if self.draft.settings.len() > before {
            self.tables.apply(setting, self.limits).expect("it has its place");
        }
    }

    /// Puts a text somewhere: mostly the longest after which all have at most so many bytes.
    fn put(&mut self, area: usize) {
        let Place { most, setting } = self.place();
        let mut without = self.tables.clone();
        without.apply(setting(Text::new()), self.limits).expect("it has its place");
        let longest = most.min(area.saturating_sub(without.text_bytes()) / 2);
        let units = if self.random.percent(80) { longest } else { self.random.within(0..=longest) };
        let text = self.text(units);
        // A quick text has a unit at least.
        if units > 0 || most == SHORT_TEXT {
            self.push(setting(text));
        }
    }

    /// At times one unit too many, also with room that comes too late, or a setting within which it is too many.
    fn end(&mut self, area: usize) {
        match self.random.below(8) {
            0 | 1 => self.put(area.saturating_add(2)),
            2 => {
                self.put(area.saturating_add(2));
                self.free();
            }
            3 => self.pass_within(),
            _ => {}
        }
        if self.draft.settings.is_empty() {
            self.push(Setting::QuickTexts { operation: Operation::Add, entries: Vec::new() });
        }
    }

    /// Deletes texts, or makes one short.
    fn free(&mut self) {
        let (index, slot) = (self.random.below(QUICK_TEXTS) as u8, self.random.below(SLOTS) as u8);
        let code = FIRST_STATUS + self.random.below(STATUS_TEXTS) as u8;
        let entry = |key, units| TextEntry { key, text: vec![0x41; units] };
        let setting = match self.random.below(5) {
            0 | 1 => Setting::QuickTexts {
                operation: Operation::Delete,
                entries: vec![entry(index, 0), entry(63 - index, 0)],
            },
            2 => Setting::StatusTexts { operation: Operation::Add, entries: vec![entry(code, 1)] },
            3 => Setting::LineSlot { index: slot, slot: None },
            _ => Setting::Group { index: slot, slot: None },
        };
        self.push(setting);
    }

    /// A status text with 16 units, and then, in the same setting, with as many as it had.
    fn pass_within(&mut self) {
        let place = self.random.below(STATUS_TEXTS);
        let held = self.tables.status_texts[place].as_ref().map_or(0, Vec::len);
        let key = FIRST_STATUS + place as u8;
        let entries = [SHORT_TEXT, held].map(|units| TextEntry { key, text: self.text(units) });
        let operation = Operation::Add;
        self.push(Setting::StatusTexts { operation, entries: entries.to_vec() });
    }

    fn text(&mut self, units: usize) -> Text {
        let most = match self.draft.coding {
            Coding::Eight => 0xFF,
            Coding::Unicode => 0xFFFF,
        };
        (0..units).map(|_| self.random.within(1..=most) as u16).collect()
    }

    /// In any of the eight tables; a list that is full has a place for a known key alone.
    fn place(&mut self) -> Place {
        let setting = match self.random.below(8) {
            0 => return self.quick_place(),
            1 => self.status_place(),
            2..=4 => self.slot_place(),
            5 => self.line_place(),
            _ => self.contact_place(),
        };
        Place { most: SHORT_TEXT, setting }
    }

    /// A free index, for elsewhere the text would do nothing; or else a status text.
    fn quick_place(&mut self) -> Place {
        let held = &self.tables.quick_texts;
        let free: Vec<usize> = (0..QUICK_TEXTS).filter(|&index| held[index].is_none()).collect();
        if free.is_empty() {
            return Place { most: SHORT_TEXT, setting: self.status_place() };
        }
        let (key, operation) = (self.random.pick(&free) as u8, Operation::Add);
        let entries = move |text| vec![TextEntry { key, text }];
        let setting = move |text| Setting::QuickTexts { operation, entries: entries(text) };
        Place { most: QUICK_TEXT, setting: Box::new(setting) }
    }

    fn status_place(&mut self) -> Putting {
        let key = FIRST_STATUS + self.random.below(STATUS_TEXTS) as u8;
        let (operation, entries) = (Operation::Add, move |text| vec![TextEntry { key, text }]);
        Box::new(move |text| Setting::StatusTexts { operation, entries: entries(text) })
    }

    fn slot_place(&mut self) -> Putting {
        let index = self.random.below(SLOTS) as u8;
        let (address, flags) = (self.address(), self.group_flags());
        let (one, line) = (IndividualFlags::default(), LineFlags::default());
        match self.random.below(3) {
            0 => Box::new(move |text| Setting::Group {
                index,
                slot: Some(flags.of(GroupAddress(address), text)),
            }),
            1 => Box::new(move |text| Setting::Individual {
                index,
                slot: Some(one.of(IndividualAddress(address), text)),
            }),
            _ => Box::new(move |text| {
                let slot = Some(Line { digits: digits_of(address), flags: line, text });
                Setting::LineSlot { index, slot }
            }),
        }
    }

    fn contact_place(&mut self) -> Putting {
        let (operation, flags) = (Operation::Add, self.group_flags());
        if self.random.flag() {
            let known = self.tables.group_contacts.iter().map(|group| group.address).collect();
            let new = GroupAddress(self.address());
            let address = self.key(known, MOST_CONTACTS, new);
            let entries = move |text| vec![ContactEntry { address, text }];
            return Box::new(move |text| Setting::GroupContacts {
                operation,
                flags,
                entries: entries(text),
            });
        }
        let known = self.tables.individual_contacts.iter().map(|one| one.address).collect();
        let new = IndividualAddress(self.address());
        let address = self.key(known, MOST_CONTACTS, new);
        let entries = move |text| vec![ContactEntry { address, text }];
        let flags = IndividualFlags::default();
        Box::new(move |text| Setting::IndividualContacts {
            operation,
            flags,
            entries: entries(text),
        })
    }

    fn line_place(&mut self) -> Putting {
        let known =
            self.tables.lines.iter().map(|line| (line.flags, line.digits.clone())).collect();
        let new = (LineFlags::default(), digits_of(self.address()));
        let (flags, digits) = self.key(known, self.limits.lines, new);
        let entries = move |text| vec![LineEntry { digits: digits.clone(), text }];
        let operation = Operation::Add;
        Box::new(move |text| Setting::Lines { operation, flags, entries: entries(text) })
    }

    /// One of the known ones where there is no place for another, or at times; else the new one.
    fn key<T: Clone>(&mut self, known: Vec<T>, places: usize, new: T) -> T {
        let keep = known.len() == places || (!known.is_empty() && self.random.flag());
        if keep {
            known[self.random.below(known.len())].clone()
        } else {
            new
        }
    }

    fn group_flags(&mut self) -> GroupFlags {
        let attribute = self.random.within(1..=3) as u8;
        GroupFlags { attribute, broadcast: self.random.flag(), ..GroupFlags::default() }
    }

    fn address(&mut self) -> u32 {
        0x10_0000 + self.random.within(1..=0x7FFF) as u32
    }
}

/// A number for a line.
fn digits_of(address: u32) -> Vec<u8> {
    address.to_string().bytes().map(|digit| digit - b'0').collect()
}
