//! Texts, and the two coding types that a request may write them in (document 02, A2).

use super::bits::{BitReader, BitWriter};

#[cfg(test)]
mod tests;

/// A text as it is kept, shown and exported: 16-bit units, whatever it was written in.
pub type Text = Vec<u16>;

/// Most units of a text, under either coding type.
pub const SHORT_TEXT: usize = 16;
pub const QUICK_TEXT: usize = 23;

/// The coding types of the standard's table 3 that a request may have.
#[derive(Clone, Copy, Debug, PartialEq, Eq)]
pub enum Coding {
    /// 0100, eight-bit characters: each byte is the unit of the same value.
    Eight,
    /// 0111, 16-bit Unicode.
    Unicode,
}

impl Coding {
    pub const ALL: [Coding; 2] = [Coding::Eight, Coding::Unicode];

    pub fn number(self) -> u8 {
        match self {
            Coding::Eight => 0b0100,
            Coding::Unicode => 0b0111,
        }
    }

    pub fn from_number(number: u8) -> Option<Coding> {
        Coding::ALL.into_iter().find(|coding| coding.number() == number)
    }

    /// Bits of a unit, and of the unit 0 that ends a text.
    pub fn width(self) -> usize {
        match self {
            Coding::Eight => 8,
            Coding::Unicode => 16,
        }
    }

    /// Units up to the end, which must come after at most `most` of them.
    pub fn read_text(self, bits: &mut BitReader, most: usize) -> Option<Text> {
        let mut text = Text::new();
        loop {
            match bits.bits(self.width())? as u16 {
                0 => return Some(text),
                _ if text.len() == most => return None,
                unit => text.push(unit),
            }
        }
    }

    /// Units and the end; nothing where a unit has no writing, as one above 255 has none under 0100.
    pub fn write_text(self, bits: &mut BitWriter, text: &[u16]) -> Option<()> {
        let has_writing = |&unit: &u16| unit != 0 && u32::from(unit) < 1 << self.width();
        text.iter().all(has_writing).then(|| {
            text.iter().chain(&[0]).for_each(|&unit| bits.bits(u32::from(unit), self.width()));
        })
    }
}
