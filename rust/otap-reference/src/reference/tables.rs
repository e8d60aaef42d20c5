//! The tables and what each operation does to them.

use super::limits::{Limits, Texts};
use super::message::Hash;
pub use super::settings::Line;
use super::settings::{
    EmergencyKey, GroupSlot, HomeNumbers, IndividualSlot, LineEntry, Operation, Setting,
    SystemCode, TextEntry,
};
use super::texts::Text;

#[cfg(test)]
mod contact_tests;
#[cfg(test)]
mod room_tests;
#[cfg(test)]
mod tests;
#[cfg(test)]
mod units_tests;

/// Of the group contacts, and of the individual ones.
pub const MOST_CONTACTS: usize = 64;
pub const QUICK_TEXTS: usize = 64;
pub const FIRST_STATUS: u8 = 32;
pub const STATUS_TEXTS: usize = 96;
pub const SLOTS: usize = 16;

#[derive(Clone, Debug, PartialEq, Eq)]
pub struct Tables {
    pub group_contacts: Vec<GroupSlot>,
    pub individual_contacts: Vec<IndividualSlot>,
    pub lines: Vec<Line>,
    pub emergency: EmergencyKey,
    /// By index 0 to 63.
    pub quick_texts: Vec<Option<Text>>,
    pub home: HomeNumbers,
    pub channels: Vec<u16>,
    pub system: SystemCode,
    /// By code less 32.
    pub status_texts: Vec<Option<Text>>,
    pub groups: Vec<Option<GroupSlot>>,
    pub individuals: Vec<Option<IndividualSlot>>,
    pub line_slots: Vec<Option<Line>>,
}

/// What a store stands for: the tables of a kind of set, and the hash kept.
#[derive(Clone, Debug, PartialEq, Eq)]
pub struct Set {
    pub limits: Limits,
    pub tables: Tables,
    pub hash: Hash,
}

impl Set {
    /// In which nothing was ever set.
    pub fn fresh(limits: Limits) -> Set {
        Set { limits, tables: Tables::default(), hash: Hash::default() }
    }
}

#[derive(Clone, Copy, Debug, PartialEq, Eq)]
pub struct NoRoom;

impl Default for Tables {
    fn default() -> Self {
        Tables {
            group_contacts: Vec::new(),
            individual_contacts: Vec::new(),
            lines: Vec::new(),
            emergency: EmergencyKey::default(),
            quick_texts: vec![None; QUICK_TEXTS],
            home: HomeNumbers::default(),
            channels: Vec::new(),
            system: SystemCode::default(),
            status_texts: vec![None; STATUS_TEXTS],
            groups: vec![None; SLOTS],
            individuals: vec![None; SLOTS],
            line_slots: vec![None; SLOTS],
        }
    }
}

/// What has a text.
trait Named {
    /// The units of its text.
    fn units(&self) -> usize;
}

impl Named for Text {
    fn units(&self) -> usize {
        self.len()
    }
}

impl Named for GroupSlot {
    fn units(&self) -> usize {
        self.text.len()
    }
}

impl Named for IndividualSlot {
    fn units(&self) -> usize {
        self.text.len()
    }
}

impl Named for Line {
    fn units(&self) -> usize {
        self.text.len()
    }
}

fn units_of<'a, T: Named + 'a>(held: impl IntoIterator<Item = &'a T>) -> usize {
    held.into_iter().map(T::units).sum()
}

/// Gives a place what it holds now, and counts the units that come and go.
fn put<T: Named>(place: &mut Option<T>, new: Option<T>, units: &mut usize) {
    *units = *units + units_of(&new) - units_of(&*place);
    *place = new;
}

/// An entry of a list that holds each key once.
trait Keyed: Named {
    fn same_key(&self, other: &Self) -> bool;
}

impl Keyed for GroupSlot {
    fn same_key(&self, other: &Self) -> bool {
        self.address == other.address
    }
}

impl Keyed for IndividualSlot {
    fn same_key(&self, other: &Self) -> bool {
        self.address == other.address
    }
}

impl Keyed for Line {
    fn same_key(&self, other: &Self) -> bool {
        self.key() == other.key()
    }
}

/// A new key comes last, if there is a place left, and a known one is overwritten in its place; a delete closes the gap.
fn apply_keyed<T: Keyed>(
    list: &mut Vec<T>,
    most: usize,
    operation: Operation,
    entries: impl Iterator<Item = T>,
    units: &mut usize,
) -> Result<(), NoRoom> {
    if operation == Operation::Replace {
        // Of lines those of both IDtypes: it is the table that is emptied.
        *units -= units_of(&*list);
        list.clear();
    }
    for entry in entries {
        let known = list.iter().position(|kept| kept.same_key(&entry));
        match (operation, known) {
            (Operation::Delete, Some(place)) => *units -= list.remove(place).units(),
            (Operation::Delete, None) => {}
            (_, Some(place)) => {
                *units = *units + entry.units() - list[place].units();
                list[place] = entry;
            }
            (_, None) if list.len() == most => return Err(NoRoom),
            (_, None) => {
                *units += entry.units();
                list.push(entry);
            }
        }
    }
    Ok(())
}

impl Tables {
    /// Applies one setting by the room of a set; without room the tables are left changed, for the caller to drop.
    pub fn apply(&mut self, setting: Setting, limits: Limits) -> Result<(), NoRoom> {
        self.apply_counting(setting, limits, &mut self.units())
    }

    /// As `apply`, with the units of all texts, which are those after it then, so that none is counted again for each setting of a request.
    pub fn apply_counting(
        &mut self,
        setting: Setting,
        limits: Limits,
        units: &mut usize,
    ) -> Result<(), NoRoom> {
        self.change(setting, limits, units)?;
        match limits.texts {
            // Of the whole setting: while it acts, its texts may pass the area.
            Texts::Shared(area) if 2 * *units > area => Err(NoRoom),
            _ => Ok(()),
        }
    }

    /// The texts of all tables: by table in the order in which a store has them, and then by row.
    pub fn texts(&self) -> impl Iterator<Item = &Text> {
        let quick_and_status = self.quick_texts.iter().chain(&self.status_texts).flatten();
        let groups = self.groups.iter().flatten().map(|group| &group.text);
        let individuals = self.individuals.iter().flatten().map(|individual| &individual.text);
        let line_slots = self.line_slots.iter().flatten().map(|line| &line.text);
        let group_contacts = self.group_contacts.iter().map(|group| &group.text);
        let individual_contacts = self.individual_contacts.iter().map(|one| &one.text);
        let lines = self.lines.iter().map(|line| &line.text);
        let slots = groups.chain(individuals).chain(line_slots);
        quick_and_status.chain(slots).chain(group_contacts).chain(individual_contacts).chain(lines)
    }

    /// How many units they have.
    pub fn units(&self) -> usize {
        units_of(self.texts())
    }

    /// What they take in a shared area.
    pub fn text_bytes(&self) -> usize {
        2 * self.units()
    }

    /// What a setting does to its table, by the places that a set has, and to the units of all texts.
    fn change(
        &mut self,
        setting: Setting,
        limits: Limits,
        units: &mut usize,
    ) -> Result<(), NoRoom> {
        match setting {
            Setting::GroupContacts { operation, flags, entries } => {
                let new = entries.into_iter().map(|entry| flags.of(entry.address, entry.text));
                let list = &mut self.group_contacts;
                return apply_keyed(list, MOST_CONTACTS, operation, new, units);
            }
            Setting::IndividualContacts { operation, flags, entries } => {
                let new = entries.into_iter().map(|entry| flags.of(entry.address, entry.text));
                let list = &mut self.individual_contacts;
                return apply_keyed(list, MOST_CONTACTS, operation, new, units);
            }
            Setting::Lines { operation, flags, entries } => {
                let line =
                    |entry: LineEntry| Line { digits: entry.digits, flags, text: entry.text };
                let new = entries.into_iter().map(line);
                return apply_keyed(&mut self.lines, limits.lines, operation, new, units);
            }
            Setting::Channels { operation, channels } => {
                return self.apply_channels(operation, channels, limits.channels)
            }
            Setting::QuickTexts { operation, entries } => {
                self.apply_quick(operation, entries, units);
            }
            Setting::StatusTexts { operation, entries } => {
                self.apply_status(operation, entries, units);
            }
            Setting::Emergency(key) => self.emergency = key,
            Setting::Home(home) => self.home = home,
            Setting::System(code) => self.system = code,
            Setting::Group { index, slot } => {
                put(&mut self.groups[usize::from(index)], slot, units);
            }
            Setting::Individual { index, slot } => {
                put(&mut self.individuals[usize::from(index)], slot, units);
            }
            Setting::LineSlot { index, slot } => {
                put(&mut self.line_slots[usize::from(index)], slot, units);
            }
            Setting::Last(_) => {}
        }
        Ok(())
    }

    fn apply_channels(
        &mut self,
        operation: Operation,
        channels: Vec<u16>,
        most: usize,
    ) -> Result<(), NoRoom> {
        match operation {
            Operation::Delete => {
                self.channels.retain(|kept| !channels.contains(kept));
                return Ok(());
            }
            Operation::Replace => self.channels.clear(),
            Operation::Add => {}
        }
        let room = most.saturating_sub(self.channels.len());
        self.channels.extend(channels.iter().take(room));
        if channels.len() <= room {
            Ok(())
        } else {
            Err(NoRoom)
        }
    }

    fn apply_quick(&mut self, operation: Operation, entries: Vec<TextEntry>, units: &mut usize) {
        if operation == Operation::Replace {
            self.quick_texts.iter_mut().for_each(|place| put(place, None, units));
        }
        for TextEntry { key, text } in entries {
            let place = &mut self.quick_texts[usize::from(key)];
            if operation == Operation::Delete {
                put(place, None, units);
            } else if place.is_none() {
                // An index that has a text keeps it.
                put(place, Some(text), units);
            }
        }
    }

    fn apply_status(&mut self, operation: Operation, entries: Vec<TextEntry>, units: &mut usize) {
        if operation == Operation::Replace {
            self.status_texts.iter_mut().for_each(|place| put(place, None, units));
        }
        for TextEntry { key, text } in entries {
            let place = &mut self.status_texts[usize::from(key - FIRST_STATUS)];
            put(place, (operation != Operation::Delete).then_some(text), units);
        }
    }
}
