//! Single settings of every type, with values put out of range as often as asked.

pub mod contacts;
pub mod lines;
pub mod parameters;
mod slots;

use super::random::Random;
use crate::reference::bits::BitWriter;
use crate::reference::message::Hash;
use crate::reference::tables::Set;
use crate::reference::texts::Coding;

/// All but the last item's.
pub const TYPES: [u8; 12] =
    [0xC8, 0xC9, 0xCA, 0xCB, 0xCC, 0xCD, 0xCE, 0xCF, 0xD0, 0xD1, 0xD2, 0xD3];

/// Too small, or with low 15 bits 0.
const NO_ADDRESSES: [u32; 7] = [0, 1, 0x0F_FFFF, 0x10_0000, 0x10_8000, 0xFF_8000, 0x00_8001];

const ADD: u32 = 1;
const DELETE: u32 = 2;
const REPLACE: u32 = 3;

#[derive(Clone, Copy, PartialEq, Eq)]
pub enum Size {
    Small,
    Large,
}

/// Where the keys of one setting come from.
#[derive(Clone, Copy)]
enum Keys {
    Pool,
    Known,
    Fresh,
}

pub struct Maker<'a> {
    pub random: &'a mut Random,
    /// The set that it makes for.
    pub set: &'a Set,
    /// What texts are written in.
    pub coding: Coding,
    /// How many ranged values stay good before one is put out of range, if any is.
    pub slip_after: Option<usize>,
}

/// Few hashes with much in common, so that queries come close.
pub fn pool_hash(random: &mut Random) -> Hash {
    match random.below(8) {
        0 => Hash::Nothing,
        1 => Hash::Crc([0; 4]),
        2 => Hash::Crc([1, 2, 3, 4]),
        3 => Hash::Crc([1, 2, 3, 5]),
        4 => Hash::Stamped([0; 10]),
        5 => Hash::Stamped([1, 2, 3, 4, 5, 6, 7, 8, 9, 10]),
        6 => Hash::Stamped([1, 2, 3, 4, 5, 6, 7, 8, 9, 11]),
        _ if random.flag() => Hash::Crc(random.bytes()),
        _ => Hash::Stamped(random.bytes()),
    }
}

fn setting(kind: u8, fields: BitWriter) -> Vec<u8> {
    let fields = fields.finish();
    let mut bytes = vec![kind];
    bytes.extend((fields.len() as u16 + 2).to_be_bytes());
    bytes.extend(fields);
    bytes
}

/// Made with one value out of its range, whichever of them.
pub fn slipped(
    random: &mut Random,
    set: &Set,
    coding: Coding,
    make: impl Fn(&mut Maker) -> Vec<u8>,
) -> Vec<u8> {
    // It may have fewer values than were to stay good: then once more.
    loop {
        let slip_after = Some(random.below(6));
        let mut maker = Maker { random, set, coding, slip_after };
        let made = make(&mut maker);
        if maker.slip_after.is_none() {
            return made;
        }
    }
}

impl Maker<'_> {
    pub fn any(&mut self, size: Size) -> Vec<u8> {
        let kind = self.random.pick(&TYPES);
        self.of_type(kind, size)
    }

    pub fn of_type(&mut self, kind: u8, size: Size) -> Vec<u8> {
        match kind {
            0xC8 | 0xC9 => self.contacts(kind, size),
            0xCA => self.lines(size),
            0xCB => self.emergency(),
            0xCC => self.quick_texts(size),
            0xCD => self.home(),
            0xCE => self.channels(size),
            0xCF => self.system(),
            0xD0 => self.status_texts(size),
            0xD1 => self.group(),
            0xD2 => self.individual(),
            0xD3 => self.line_slot(),
            _ => self.last(),
        }
    }

    /// True once, so that no other fault hides this one.
    fn slip(&mut self) -> bool {
        let now = self.slip_after == Some(0);
        self.slip_after = self.slip_after.and_then(|left| left.checked_sub(1));
        now
    }

    fn ranged(&mut self, good: u32, bad: &[u32]) -> u32 {
        if self.slip() {
            self.random.pick(bad)
        } else {
            good
        }
    }

    /// Reserved bits are mostly 0 and must not matter when they are not.
    fn reserved(&mut self, bits: &mut BitWriter, width: usize) {
        let value = if self.random.percent(75) { 0 } else { self.random.bits(width) };
        bits.bits(value, width);
    }

    fn flags(&mut self, bits: &mut BitWriter, width: usize) {
        bits.bits(self.random.bits(width), width);
    }

    fn operation(&mut self, from: &[u32]) -> u32 {
        let good = self.random.pick(from);
        self.ranged(good, &[0])
    }

    fn count(&mut self, size: Size, most: usize) -> usize {
        match size {
            Size::Small => self.random.pick(&[0, 1, 1, 1, 2, 3, 4]),
            Size::Large if self.random.percent(30) => most,
            Size::Large => self.random.within(5..=most),
        }
    }

    /// Units with zero bytes side by side, surrogates and FFFF among them.
    fn text(&mut self, bits: &mut BitWriter, least: usize, most: usize) {
        let length = match self.random.below(10) {
            0..=3 => least,
            4..=7 => self.random.within(least..=4),
            8 => most,
            _ => self.random.within(least..=most),
        };
        let too_many = [most + 1, most + 1, most + 2, most + 40];
        let slipped = if least > 0 && self.random.flag() { 0 } else { self.random.pick(&too_many) };
        let length = if self.slip() { slipped } else { length };
        self.units(bits, length);
        bits.bits(0, self.coding.width());
    }

    fn units(&mut self, bits: &mut BitWriter, length: usize) {
        let low = [0x0041, 0x0001, 0x007F, 0x0080, 0x00FF];
        let wide = [0x0041, 0x4100, 0x0001, 0x00FF, 0x8000, 0x0100, 0xFFFF, 0xD800, 0xDC00, 0x4E2D];
        let (odd, most) = match self.coding {
            Coding::Eight => (&low[..], 0xFF),
            Coding::Unicode => (&wide[..], 0xFFFF),
        };
        for _ in 0..length {
            let any = self.random.within(1..=most) as u32;
            let unit = if self.random.flag() { self.random.pick(odd) } else { any };
            bits.bits(unit, self.coding.width());
        }
    }

    fn address(&mut self) -> u32 {
        let good = self.good_address();
        self.ranged(good, &NO_ADDRESSES)
    }

    /// Any address, or often one at the edges.
    fn good_address(&mut self) -> u32 {
        if self.random.percent(30) {
            return self.random.pick(&[0x10_0001, 0x10_7FFF, 0xFF_8001, 0xFF_FFFF, 0x10_8001]);
        }
        loop {
            let any = self.random.bits(24);
            if any >= 0x10_0000 && any & 0x7FFF != 0 {
                return any;
            }
        }
    }

    fn keys(&mut self) -> Keys {
        self.random.pick(&[Keys::Pool, Keys::Pool, Keys::Known, Keys::Fresh])
    }

    fn fill(&mut self, bits: &mut BitWriter) {
        if !bits.is_whole() {
            let filling = self.ranged(15, &[0, 1, 7, 14]);
            bits.bits(filling, 4);
        }
    }

    fn emergency(&mut self) -> Vec<u8> {
        let mut bits = BitWriter::new();
        let current = self.random.flag();
        bits.flag(current);
        self.flags(&mut bits, 4);
        self.reserved(&mut bits, 3);
        // A slip sends the address that current 1 leaves out, or leaves out the other.
        if current == self.slip() {
            let address = self.address();
            bits.bits(address, 24);
        }
        setting(0xCB, bits)
    }

    fn quick_texts(&mut self, size: Size) -> Vec<u8> {
        let operation = self.operation(&[ADD, ADD, DELETE, REPLACE]);
        let count = self.count(size, 63);
        let first = self.random.below(64);
        let in_order = self.random.flag();
        let index = |place| if in_order { (first + place) % 64 } else { self.random.below(64) };
        let indexes: Vec<usize> = (0..count).map(index).collect();
        self.quick_setting(operation, &indexes)
    }

    fn quick_setting(&mut self, operation: u32, indexes: &[usize]) -> Vec<u8> {
        let mut bits = BitWriter::new();
        bits.bits(operation, 2);
        bits.bits(indexes.len() as u32, 6);
        for &index in indexes {
            self.reserved(&mut bits, 2);
            bits.bits(index as u32, 6);
            self.text(&mut bits, usize::from(operation != DELETE), 23);
        }
        setting(0xCC, bits)
    }

    pub fn add_quick_texts(&mut self, indexes: &[usize]) -> Vec<u8> {
        self.quick_setting(ADD, indexes)
    }

    fn home(&mut self) -> Vec<u8> {
        let mut bits = BitWriter::new();
        self.home_fields(&mut bits);
        setting(0xCD, bits)
    }

    fn home_fields(&mut self, bits: &mut BitWriter) {
        self.flags(bits, 9);
        let edge = self.random.pick(&[0, 328, 806]);
        let good = if self.random.flag() { edge } else { self.random.within(0..=806) as u32 };
        let np = self.ranged(good, &[807, 808, 1_023]);
        bits.bits(np, 10);
        self.reserved(bits, 5);
    }

    fn channel(&mut self, keys: Keys) -> u32 {
        let known = &self.set.tables.channels;
        let good = match keys {
            Keys::Known if !known.is_empty() => u32::from(known[self.random.below(known.len())]),
            Keys::Fresh => self.random.within(241..=640) as u32,
            _ => self.random.pick(&[241, 242, 255, 256, 511, 512, 639, 640]),
        };
        self.ranged(good, &[0, 1, 240, 641, 4_095, 752])
    }

    fn channels(&mut self, size: Size) -> Vec<u8> {
        let operation = self.operation(&[ADD, ADD, DELETE, REPLACE]);
        // Deletes may be as long as Count says; the others soon have no room.
        let most = if operation == DELETE { 1_023 } else { self.set.limits.channels + 2 };
        let count = self.count(size, most);
        self.channel_setting(operation, count)
    }

    fn channel_setting(&mut self, operation: u32, count: usize) -> Vec<u8> {
        let mut bits = BitWriter::new();
        let keys = self.keys();
        bits.bits(operation, 2);
        self.reserved(&mut bits, 4);
        bits.bits(count as u32, 10);
        for _ in 0..count {
            let channel = self.channel(keys);
            bits.bits(channel, 12);
        }
        self.fill(&mut bits);
        setting(0xCE, bits)
    }

    pub fn add_channels(&mut self, count: usize) -> Vec<u8> {
        self.channel_setting(ADD, count)
    }

    pub fn delete_channel(&mut self, channel: u16) -> Vec<u8> {
        let mut bits = BitWriter::new();
        bits.bits(DELETE, 2);
        self.reserved(&mut bits, 4);
        bits.bits(1, 10);
        bits.bits(u32::from(channel), 12);
        self.fill(&mut bits);
        setting(0xCE, bits)
    }

    fn system(&mut self) -> Vec<u8> {
        let mut bits = BitWriter::new();
        self.system_fields(&mut bits);
        setting(0xCF, bits)
    }

    fn system_fields(&mut self, bits: &mut BitWriter) {
        self.flags(bits, 12);
        let good = self.random.below(9) as u32;
        let la = self.ranged(good, &[9, 10, 15]);
        let good = self.random.below(3) as u32;
        let roaming = self.ranged(good, &[3]);
        bits.bits(la, 4);
        bits.bits(roaming, 2);
        self.flags(bits, 1);
        self.reserved(bits, 5);
    }

    fn status_texts(&mut self, size: Size) -> Vec<u8> {
        let mut bits = BitWriter::new();
        let operation = self.operation(&[ADD, ADD, DELETE, REPLACE]);
        let count = self.count(size, 255);
        let most = if count > 100 { 4 } else { 16 };
        bits.bits(operation, 2);
        self.reserved(&mut bits, 6);
        bits.bits(count as u32, 8);
        let first = self.random.below(96);
        let in_order = self.random.flag();
        for place in 0..count {
            let code = if in_order { (first + place) % 96 } else { self.random.below(96) };
            let code = self.ranged(code as u32 + 32, &[0, 31, 128, 255]);
            bits.bits(code, 8);
            self.text(&mut bits, 0, most);
        }
        setting(0xD0, bits)
    }

    pub fn last(&mut self) -> Vec<u8> {
        let mut bits = BitWriter::new();
        let hash = pool_hash(self.random);
        self.flags(&mut bits, 2);
        let code = self.ranged(u32::from(hash.code()), &[0, 1, 2, 3, 63]);
        bits.bits(code, 6);
        bits.bytes(hash.value());
        setting(0xFF, bits)
    }
}
