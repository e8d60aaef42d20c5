//! Group and individual contacts, so that addresses are often met again, in the other list too.

use super::{setting, Keys, Maker, Size, ADD, DELETE, NO_ADDRESSES, REPLACE};
use crate::reference::bits::BitWriter;

/// Addresses that differ from each other in one byte, or in high and low bytes alike, and those at the plans' ends.
const POOL: [u32; 24] = [
    0x10_0001, 0x10_0002, 0x10_0100, 0x10_0101, 0x10_0200, 0x10_0201, 0x11_0001, 0x11_0101,
    0x20_0001, 0x90_0001, 0xF0_0001, 0x10_8001, 0x10_7FFF, 0x10_FFFF, 0x10_1B58, 0x10_1B59,
    0x10_3C28, 0x10_3C29, 0xFF_1B58, 0xFF_7DC8, 0xFF_7DC9, 0xFF_8001, 0xFF_FFFE, 0xFF_FFFF,
];

impl Maker<'_> {
    /// The addresses that the list of a type holds, in order.
    pub fn known_addresses(&self, kind: u8) -> Vec<u32> {
        let tables = &self.set.tables;
        if kind == 0xC8 {
            tables.group_contacts.iter().map(|contact| contact.address.0).collect()
        } else {
            tables.individual_contacts.iter().map(|contact| contact.address.0).collect()
        }
    }

    /// Addresses that are none of these, first some of the other list.
    pub fn new_addresses(&mut self, kind: u8, known: &[u32], count: usize) -> Vec<u32> {
        let other = if kind == 0xC8 { 0xC9 } else { 0xC8 };
        let mut new: Vec<u32> = self.known_addresses(other);
        new.retain(|address| !known.contains(address) && self.random.percent(20));
        while new.len() < count {
            let address = self.good_address();
            if !known.contains(&address) && !new.contains(&address) {
                new.push(address);
            }
        }
        new.truncate(count);
        new
    }

    fn contact_addresses(&mut self, kind: u8, keys: Keys, count: usize) -> Vec<u32> {
        let known = match keys {
            Keys::Known => self.known_addresses(kind),
            Keys::Pool => POOL.to_vec(),
            Keys::Fresh => return (0..count).map(|_| self.good_address()).collect(),
        };
        let from = if known.is_empty() { &POOL[..] } else { &known };
        (0..count).map(|_| self.random.pick(from)).collect()
    }

    pub(super) fn contacts(&mut self, kind: u8, size: Size) -> Vec<u8> {
        let operation = self.operation(&[ADD, ADD, DELETE, REPLACE]);
        let keys = self.keys();
        // New addresses soon have no room, unless they are deleted.
        let many = operation == DELETE || !matches!(keys, Keys::Fresh);
        let count = self.count(size, if many { 255 } else { 66 });
        let addresses = self.contact_addresses(kind, keys, count);
        self.contact_setting(kind, operation, &addresses)
    }

    /// With flags of its own; the attribute is held to its range in a delete too, and where there is no address.
    fn contact_setting(&mut self, kind: u8, operation: u32, addresses: &[u32]) -> Vec<u8> {
        let mut bits = BitWriter::new();
        let most = if addresses.len() > 100 { 4 } else { 16 };
        bits.bits(operation, 2);
        if kind == 0xC8 {
            let good = self.random.within(1..=3) as u32;
            let attribute = self.ranged(good, &[0]);
            bits.bits(attribute, 2);
            self.flags(&mut bits, 6);
            self.reserved(&mut bits, 6);
        } else {
            self.flags(&mut bits, 4);
            self.reserved(&mut bits, 2);
        }
        bits.bits(addresses.len() as u32, 8);
        for &good in addresses {
            let address = self.ranged(good, &NO_ADDRESSES);
            bits.bits(address, 24);
            self.text(&mut bits, 0, most);
        }
        setting(kind, bits)
    }

    /// Adds these contacts by one setting, or by several with flags of their own.
    pub fn add_contacts(&mut self, kind: u8, addresses: &[u32]) -> Vec<Vec<u8>> {
        let each = self.random.pick(&[1, 2, 7, 30, 255]);
        addresses.chunks(each).map(|some| self.contact_setting(kind, ADD, some)).collect()
    }

    pub fn delete_contacts(&mut self, kind: u8, addresses: &[u32]) -> Vec<u8> {
        self.contact_setting(kind, DELETE, addresses)
    }

    pub fn replace_contacts(&mut self, kind: u8, addresses: &[u32]) -> Vec<u8> {
        self.contact_setting(kind, REPLACE, addresses)
    }
}
