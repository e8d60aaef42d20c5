//! Where each region of a store stands, in both forms: slots that have their texts in them, or slots that say how long these are.

use crate::reference::limits::{Limits, Texts};
use crate::reference::screen::Row;
use crate::reference::tables::{FIRST_STATUS, MOST_CONTACTS, QUICK_TEXTS, SLOTS, STATUS_TEXTS};
use crate::reference::texts::{QUICK_TEXT, SHORT_TEXT};
use std::ops::Range;

/// Bytes of the kept hash, the emergency key, the home numbers and the system code, which stand first.
pub const FIXED: usize = 22;
/// Bytes of a count, high byte first.
pub const COUNT: usize = 2;
pub const CHANNEL: usize = 2;
/// Bytes of a group or an individual before its text, in a slot or among the contacts; those of a line.
pub const MEMBER_HEAD: usize = 4;
pub const LINE_HEAD: usize = 20;
/// The address of a group or an individual among them; IDtype and digits of a line.
pub const MEMBER_KEY: Range<usize> = 1..4;
pub const LINE_KEY: Range<usize> = 1..20;

/// Slots side by side: the first byte of the first, the bytes of each, and how many there are.
#[derive(Clone, Copy, Debug, PartialEq, Eq)]
pub struct Slots {
    pub at: usize,
    pub width: usize,
    pub places: usize,
}

impl Slots {
    pub fn end(self) -> usize {
        self.slot(self.places)
    }

    /// The first byte of a slot.
    pub fn slot(self, place: usize) -> usize {
        self.at + place * self.width
    }

    /// Their bytes of a store.
    pub fn of(self, bytes: &[u8]) -> &[u8] {
        &bytes[self.at..self.end()]
    }

    /// Of a list: its count, which stands before its slots.
    pub fn count(self, bytes: &[u8]) -> u16 {
        u16::from_be_bytes([bytes[self.at - COUNT], bytes[self.at - COUNT + 1]])
    }
}

#[derive(Clone, Debug, PartialEq, Eq)]
pub struct Regions {
    pub quick_texts: Slots,
    pub status_texts: Slots,
    pub groups: Slots,
    pub individuals: Slots,
    pub line_slots: Slots,
    pub group_contacts: Slots,
    pub individual_contacts: Slots,
    pub channels: Slots,
    pub lines: Slots,
    /// The order of the lines, behind their slots: a byte for each place.
    pub order: Range<usize>,
    /// What the texts share, or nothing.
    pub area: Range<usize>,
}

impl Limits {
    /// The regions of such a set's store, one behind the other.
    pub fn regions(self) -> Regions {
        // Behind a head stands the place of a text, or one byte with its number of units.
        let text = |most| match self.texts {
            Texts::Placed => 2 * most,
            Texts::Shared(_) => 1,
        };
        let (member, line) = (MEMBER_HEAD + text(SHORT_TEXT), LINE_HEAD + text(SHORT_TEXT));
        let behind = |before: Slots, width, places| Slots { at: before.end(), width, places };
        let counted =
            |before: Slots, width, places| Slots { at: before.end() + COUNT, width, places };
        let quick_texts = Slots { at: FIXED, width: text(QUICK_TEXT), places: QUICK_TEXTS };
        let status_texts = behind(quick_texts, 1 + text(SHORT_TEXT), STATUS_TEXTS);
        let groups = behind(status_texts, member, SLOTS);
        let individuals = behind(groups, member, SLOTS);
        let line_slots = behind(individuals, line, SLOTS);
        let group_contacts = counted(line_slots, member, MOST_CONTACTS);
        let individual_contacts = counted(group_contacts, member, MOST_CONTACTS);
        let channels = counted(individual_contacts, CHANNEL, self.channels);
        let lines = counted(channels, line, self.lines);
        let order = lines.end()..lines.end() + self.lines;
        let area = order.end..order.end + self.area();
        Regions {
            quick_texts,
            status_texts,
            groups,
            individuals,
            line_slots,
            group_contacts,
            individual_contacts,
            channels,
            lines,
            order,
            area,
        }
    }

    /// Bytes of the shared area.
    fn area(self) -> usize {
        match self.texts {
            Texts::Placed => 0,
            Texts::Shared(area) => area,
        }
    }
}

impl Regions {
    /// The first byte that no table uses.
    pub fn spare(&self) -> usize {
        self.area.end
    }

    /// The tables that begin with a count.
    pub fn lists(&self) -> [Slots; 4] {
        [self.group_contacts, self.individual_contacts, self.channels, self.lines]
    }

    /// The tables with texts, in the order in which these stand in a shared area.
    pub fn with_texts(&self) -> [Slots; 8] {
        [
            self.quick_texts,
            self.status_texts,
            self.groups,
            self.individuals,
            self.line_slots,
            self.group_contacts,
            self.individual_contacts,
            self.lines,
        ]
    }

    /// How many units the slots of these tables say that their texts have, each in its last byte.
    pub fn units(&self, bytes: &[u8], tables: &[Slots]) -> usize {
        let each = tables.iter().flat_map(|slots| slots.of(bytes).chunks_exact(slots.width));
        each.map(|slot| usize::from(slot[slot.len() - 1])).sum()
    }
}

/// Where the text of a row stands in a store.
pub fn text_at(bytes: &[u8], limits: Limits, row: Row) -> usize {
    let (table, place) = match row {
        Row::Quick(index) => (0, index),
        Row::Status(code) => (1, code - usize::from(FIRST_STATUS)),
        Row::Group(index) => (2, index),
        Row::Individual(index) => (3, index),
        Row::LineSlot(index) => (4, index),
        Row::GroupContact(position) => (5, position),
        Row::IndividualContact(position) => (6, position),
        Row::Line(position) => (7, position),
    };
    let regions = limits.regions();
    let tables = regions.with_texts();
    let own = tables[table];
    match limits.texts {
        Texts::Placed => {
            let most = if table == 0 { QUICK_TEXT } else { SHORT_TEXT };
            own.slot(place + 1) - 2 * most
        }
        Texts::Shared(_) => {
            let before = Slots { places: place, ..own };
            let units = regions.units(bytes, &tables[..table]) + regions.units(bytes, &[before]);
            regions.area.start + 2 * units
        }
    }
}
