//! The parts of an export.

/// A part of an export.
#[derive(Clone, Copy, Debug, PartialEq, Eq, Hash)]
#[non_exhaustive]
#[repr(u32)]
pub enum Part {
    /// Line contacts.
    Lines = 1,
    /// Emergency key, home numbers and system code.
    KeyHomeSystem = 2,
    /// Quick texts.
    QuickTexts = 3,
    /// Scan channels.
    Channels = 4,
    /// Status texts.
    StatusTexts = 5,
    /// Group slots.
    Groups = 6,
    /// Individual slots.
    Individuals = 7,
    /// Group contacts, background groups too.
    GroupContacts = 8,
    /// Individual contacts.
    IndividualContacts = 9,
    /// Line slots.
    LineSlots = 10,
}

impl Part {
    /// Each of them; committed in this order they give a fresh set the same tables, if it has room for them: [`Set::export`](crate::Set::export) says when.
    pub const ALL: &'static [Part] = &[
        Part::Lines,
        Part::KeyHomeSystem,
        Part::QuickTexts,
        Part::Channels,
        Part::StatusTexts,
        Part::Groups,
        Part::Individuals,
        Part::GroupContacts,
        Part::IndividualContacts,
        Part::LineSlots,
    ];

    /// The number of document 01.
    pub fn number(self) -> u32 {
        self as u32
    }

    /// The part with this number.
    ///
    /// ```
    /// assert_eq!(otap::Part::from_number(4), Some(otap::Part::Channels));
    /// assert_eq!(otap::Part::from_number(0), None);
    /// ```
    pub fn from_number(number: u32) -> Option<Part> {
        Part::ALL.iter().copied().find(|part| part.number() == number)
    }
}
