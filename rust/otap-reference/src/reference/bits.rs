//! Fields of any width up to 32 bits, first bit highest.

pub struct BitReader<'a> {
    bytes: &'a [u8],
    at: usize,
}

impl<'a> BitReader<'a> {
    pub fn new(bytes: &'a [u8]) -> Self {
        BitReader { bytes, at: 0 }
    }

    /// The next `width` bits, or nothing when fewer are left.
    pub fn bits(&mut self, width: usize) -> Option<u32> {
        let end = self.at + width;
        if end > self.bytes.len() * 8 {
            return None;
        }
        let (first, behind) = (self.at / 8, end.div_ceil(8));
        let bytes = self.bytes[first..behind].iter();
        let value = bytes.fold(0, |value, &byte| value << 8 | u64::from(byte));
        self.at = end;
        Some((value >> (behind * 8 - end) & ((1 << width) - 1)) as u32)
    }

    pub fn flag(&mut self) -> Option<bool> {
        Some(self.bits(1)? == 1)
    }

    pub fn byte(&mut self) -> Option<u8> {
        Some(self.bits(8)? as u8)
    }

    /// Whole bytes behind us; every setting ends on a byte.
    pub fn bytes_read(&self) -> usize {
        assert!(self.at.is_multiple_of(8), "a setting ends on a byte");
        self.at / 8
    }

    pub fn at_end(&self) -> bool {
        self.at == self.bytes.len() * 8
    }
}

#[derive(Default)]
pub struct BitWriter {
    bytes: Vec<u8>,
    used: usize,
}

impl BitWriter {
    pub fn new() -> Self {
        Self::default()
    }

    pub fn bits(&mut self, value: u32, width: usize) {
        assert!(u64::from(value) < 1 << width, "{value} fits {width} bits");
        let mut left = width;
        while left > 0 {
            if self.is_whole() {
                self.bytes.push(0);
            }
            let room = 8 - self.used % 8;
            let taken = room.min(left);
            left -= taken;
            let part = value >> left & ((1 << taken) - 1);
            let last = self.bytes.len() - 1;
            self.bytes[last] |= (part as u8) << (room - taken);
            self.used += taken;
        }
    }

    pub fn flag(&mut self, value: bool) {
        self.bits(u32::from(value), 1);
    }

    pub fn bytes(&mut self, bytes: &[u8]) {
        bytes.iter().for_each(|&byte| self.bits(u32::from(byte), 8));
    }

    /// True between two bytes, where no filling is needed.
    pub fn is_whole(&self) -> bool {
        self.used.is_multiple_of(8)
    }

    pub fn finish(self) -> Vec<u8> {
        assert!(self.is_whole(), "a setting ends on a byte");
        self.bytes
    }
}
