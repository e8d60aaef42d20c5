//! Slots by index: groups, individuals and lines.

use super::{setting, Maker, ADD, DELETE, REPLACE};
use crate::reference::bits::BitWriter;

impl Maker<'_> {
    /// Add or delete; a slip is 00 or, here, 11.
    fn slot_operation(&mut self) -> u32 {
        let good = self.random.pick(&[ADD, ADD, DELETE]);
        self.ranged(good, &[0, REPLACE])
    }

    /// A delete's address is free.
    fn slot_address(&mut self, operation: u32) -> u32 {
        if operation == DELETE && self.random.flag() {
            return self.random.pick(&[0, 0x10_0000, 0x0F_FFFF, 0xFF_8000]);
        }
        self.address()
    }

    pub(super) fn group(&mut self) -> Vec<u8> {
        let mut bits = BitWriter::new();
        let operation = self.slot_operation();
        let free = self.random.bits(2);
        let good = self.random.within(1..=3) as u32;
        let held = self.ranged(good, &[0]);
        bits.bits(operation, 2);
        bits.bits(if operation == DELETE { free } else { held }, 2);
        self.flags(&mut bits, 6);
        self.reserved(&mut bits, 2);
        self.flags(&mut bits, 4);
        let address = self.slot_address(operation);
        bits.bits(address, 24);
        self.text(&mut bits, 0, 16);
        setting(0xD1, bits)
    }

    pub(super) fn individual(&mut self) -> Vec<u8> {
        let mut bits = BitWriter::new();
        let operation = self.slot_operation();
        bits.bits(operation, 2);
        self.flags(&mut bits, 4);
        self.reserved(&mut bits, 6);
        self.flags(&mut bits, 4);
        let address = self.slot_address(operation);
        bits.bits(address, 24);
        self.text(&mut bits, 0, 16);
        setting(0xD2, bits)
    }

    /// A delete's number is held to its range, and so is its text.
    pub(super) fn line_slot(&mut self) -> Vec<u8> {
        let mut bits = BitWriter::new();
        let operation = self.slot_operation();
        let keys = self.keys();
        let digits = self.digits(keys);
        bits.bits(operation, 2);
        self.flags(&mut bits, 5);
        self.reserved(&mut bits, 5);
        self.flags(&mut bits, 4);
        self.number(&mut bits, digits);
        self.text(&mut bits, 0, 16);
        setting(0xD3, bits)
    }
}
