//! Parameters of reports, with index fields and reserved bits of any value; a slip puts one value out of its range.

use super::{pool_hash, Keys, Maker};
use crate::reference::bits::BitWriter;
use crate::reference::message::Hash;

/// What a report has parameters of, by the byte that asks; an error is of any other.
pub const ASKED: [u8; 10] = [0xC8, 0xC9, 0xCA, 0xCB, 0xCC, 0xCD, 0xCE, 0xCF, 0xD0, 0xFF];

/// Some are types of a report or of a setting, some come near one.
pub const UNKNOWN: [u8; 16] = [
    0x00, 0x48, 0x80, 0x87, 0x88, 0x8C, 0x90, 0x91, 0x9E, 0xBF, 0xC7, 0xD1, 0xD2, 0xD3, 0xD4, 0xFE,
];

/// Results and reasons that no parameter has; 83 would be an error's.
const NO_RESULTS: [u32; 8] = [0x80, 0x81, 0x82, 0x84, 0xFF, 0x01, 0x03, 0x7F];

impl Maker<'_> {
    /// A parameter of the table that this byte asks for.
    pub fn parameter(&mut self, asked: u8) -> Vec<u8> {
        let mut bits = BitWriter::new();
        bits.bytes(&[asked - 0x40]);
        if asked == 0xFF {
            self.hash_fields(&mut bits);
            return bits.finish();
        }
        let result = self.ranged(0, &NO_RESULTS);
        bits.bits(result, 8);
        match asked {
            0xC8 | 0xC9 => self.contact_fields(&mut bits, asked),
            0xCA => self.line_fields(&mut bits),
            0xCB => self.key_fields(&mut bits),
            0xCC => {
                self.flags(&mut bits, 6);
                self.reserved(&mut bits, 2);
                self.text(&mut bits, 1, 23);
            }
            0xCD => self.home_fields(&mut bits),
            0xCE => {
                let channel = self.channel(Keys::Known);
                bits.bits(channel, 12);
                self.flags(&mut bits, 12);
            }
            0xCF => self.system_fields(&mut bits),
            _ => self.status_fields(&mut bits),
        }
        bits.finish()
    }

    /// The error of an unknown type; a slip is another result, or a byte that asks.
    pub fn error(&mut self) -> Vec<u8> {
        let any = self.random.pick(&UNKNOWN);
        let byte = self.ranged(any.into(), &ASKED.map(u32::from));
        // With 00 a byte of UNKNOWN may be a parameter that is good.
        let result = self.ranged(0x83, &[0x80, 0x81, 0x82, 0x84, 0x85, 0x93, 0xFF, 0x03]);
        vec![byte as u8, result as u8]
    }

    fn contact_fields(&mut self, bits: &mut BitWriter, asked: u8) {
        let address = self.address();
        bits.bits(address, 24);
        self.flags(bits, 4);
        if asked == 0xC8 {
            let good = self.random.within(1..=3) as u32;
            let attribute = self.ranged(good, &[0]);
            bits.bits(attribute, 2);
            self.flags(bits, 6);
            self.reserved(bits, 4);
        } else {
            self.flags(bits, 4);
        }
        self.text(bits, 0, 16);
    }

    fn line_fields(&mut self, bits: &mut BitWriter) {
        let keys = self.keys();
        let digits = self.digits(keys);
        self.flags(bits, 5);
        self.reserved(bits, 7);
        self.flags(bits, 4);
        self.number(bits, digits);
        self.text(bits, 0, 16);
    }

    /// The second bit says whether there is an address; a slip has one where it says no, or none where it says yes.
    fn key_fields(&mut self, bits: &mut BitWriter) {
        let (group, current) = (self.random.flag(), self.random.flag());
        bits.flag(group);
        bits.flag(current);
        self.flags(bits, 3);
        self.reserved(bits, 3);
        let address =
            if current { self.ranged(0, &[1, 0x10_0001, 0xFF_FFFF]) } else { self.address() };
        bits.bits(address, 24);
    }

    fn status_fields(&mut self, bits: &mut BitWriter) {
        let good = self.random.within(32..=127) as u32;
        let code = self.ranged(good, &[0, 31, 128, 255]);
        bits.bits(code, 8);
        self.flags(bits, 8);
        self.text(bits, 0, 16);
    }

    /// ListCount, then HashCode in 8 bits, of which 41 and 82 would be 1 and 2 in 6.
    fn hash_fields(&mut self, bits: &mut BitWriter) {
        let hash = pool_hash(self.random);
        let count = self.ranged(u32::from(hash != Hash::Nothing), &[2, 3, 0x80, 0x81, 0xFF]);
        bits.bits(count, 8);
        if hash != Hash::Nothing {
            let code = self.ranged(hash.code().into(), &[0, 3, 0x41, 0x82, 0xFF]);
            bits.bits(code, 8);
            bits.bytes(hash.value());
        }
    }
}
