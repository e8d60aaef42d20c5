//! What the radio works by: scan channels, emergency key, home numbers and system code.

use crate::answer::{bit, bits, value, Refusal};
use crate::conversions::{GroupAddress, IndividualAddress};
use crate::kinds::{Handheld, Kind};
use crate::store::Set;
use core::marker::PhantomData;
use core::ops::Range;

/// Where the emergency key calls.
#[derive(Clone, Copy, Debug, PartialEq, Eq, Hash)]
pub enum KeyTarget {
    /// The current place; the key's group bit is kept.
    Current {
        /// The group bit.
        group: bool,
    },
    /// A group.
    Group(GroupAddress),
    /// An individual.
    Individual(IndividualAddress),
}

/// The emergency key.
#[derive(Clone, Copy, Debug, PartialEq, Eq, Hash)]
pub struct EmergencyKey {
    /// Where it calls.
    pub target: KeyTarget,
    /// Voice.
    pub voice: bool,
    /// Status.
    pub status: bool,
    /// Siren.
    pub siren: bool,
}

impl EmergencyKey {
    /// 8 to 31 address, 32 current, 33 group, 34 voice, 35 status, 36 siren.
    fn unpack(packed: u64) -> EmergencyKey {
        EmergencyKey::of(bits(packed, 8, 24), [32, 33, 34, 35, 36].map(|place| bit(packed, place)))
    }

    pub(crate) fn of(address: u32, flags: [bool; 5]) -> EmergencyKey {
        let [current, group, voice, status, siren] = flags;
        let target = match (current, group) {
            (true, group) => KeyTarget::Current { group },
            (false, true) => KeyTarget::Group(GroupAddress(address)),
            (false, false) => KeyTarget::Individual(IndividualAddress(address)),
        };
        EmergencyKey { target, voice, status, siren }
    }
}

/// The home numbers.
#[derive(Clone, Copy, Debug, Default, PartialEq, Eq, Hash)]
pub struct HomeNumbers {
    /// NZI, 0 to 511.
    pub nzi: u16,
    /// NP, 0 to 806.
    pub np: u16,
}

/// The system code.
#[derive(Clone, Copy, Debug, Default, PartialEq, Eq, Hash)]
pub struct SystemCode {
    /// LAI, 0 to 4095.
    pub lai: u16,
    /// LA, 0 to 8.
    pub la: u8,
    /// Roaming, 0 to 2.
    pub roaming: u8,
    /// PAR.
    pub par: bool,
}

/// 8 to 19 are the channel.
fn channel<K: Kind>(position: u32, store: &[u8]) -> Result<u32, Refusal> {
    value(K::channel(position, store), |packed| bits(packed, 8, 12))
}

impl<K: Kind> Set<'_, K> {
    /// The scan channel at a position, from 0, for [`transmit`](crate::transmit) and [`receive`](crate::receive); refused with 11, then 17 behind the last.
    pub fn channel(&self, position: u32) -> Result<u32, Refusal> {
        channel::<K>(position, self.bytes())
    }

    /// The scan channels in their order, repeats too; refused with 11.
    ///
    /// ```
    /// # fn main() -> Result<(), otap::Refusal> {
    /// use otap::{Refusal, Store, REPLY_ROOM, STORE_SIZE};
    /// let mut bytes = [0; STORE_SIZE];
    /// let mut store = Store::start(&mut bytes)?;
    /// // Replaces the scan channels by 241 and 640.
    /// let message = [2, 2, 0, 12, 8, 7, 8, 1, 0xCE, 0, 7, 0xC0, 2, 0x0F, 0x12, 0x80];
    /// store.commit(&message, &mut [0; REPLY_ROOM]);
    /// assert!(store.channels()?.eq([241, 640]));
    /// assert_eq!(store.channel(1).and_then(otap::transmit), Ok(3_560_000));
    /// assert_eq!(store.channel(2), Err(Refusal::NothingThere));
    /// # Ok(())
    /// # }
    /// ```
    pub fn channels(&self) -> Result<Channels<'_, K>, Refusal> {
        self.counts()?;
        let left = 0..K::MOST_CHANNELS as u32;
        Ok(Channels { left, store: self.bytes(), kind: PhantomData })
    }

    /// The emergency key, which is always there; refused with 11.
    ///
    /// ```
    /// # fn main() -> Result<(), otap::Refusal> {
    /// use otap::{GroupAddress, KeyTarget, Store, REPLY_ROOM, STORE_SIZE};
    /// let mut bytes = [0; STORE_SIZE];
    /// let mut store = Store::start(&mut bytes)?;
    /// assert_eq!(store.emergency_key()?.target, KeyTarget::Current { group: false });
    /// // Group 100001 hex, voice.
    /// let message = [2, 2, 0, 0, 8, 7, 8, 1, 0xCB, 0, 6, 0x60, 0x10, 0, 1];
    /// store.commit(&message, &mut [0; REPLY_ROOM]);
    /// let key = store.emergency_key()?;
    /// assert_eq!((key.target, key.voice), (KeyTarget::Group(GroupAddress(0x10_0001)), true));
    /// # Ok(())
    /// # }
    /// ```
    pub fn emergency_key(&self) -> Result<EmergencyKey, Refusal> {
        value(K::emergency_key(self.bytes()), EmergencyKey::unpack)
    }

    /// The home numbers, which are always there; refused with 11.
    pub fn home_numbers(&self) -> Result<HomeNumbers, Refusal> {
        value(K::home_numbers(self.bytes()), |packed| HomeNumbers {
            nzi: bits(packed, 8, 9) as u16,
            np: bits(packed, 17, 10) as u16,
        })
    }

    /// The system code, which is always there; refused with 11.
    ///
    /// ```
    /// # fn main() -> Result<(), otap::Refusal> {
    /// use otap::{HomeNumbers, Store, SystemCode, REPLY_ROOM, STORE_SIZE};
    /// let mut bytes = [0; STORE_SIZE];
    /// let mut store = Store::start(&mut bytes)?;
    /// // Home numbers NZI 15, NP 806; system code LAI ABC hex, LA 8, roaming 1, PAR.
    /// let message = *b"\x02\x02\0\0\x08\x07\x08\x02\xCD\0\x05\x07\xE4\xC0\xCF\0\x05\xAB\xC8\x60";
    /// store.commit(&message, &mut [0; REPLY_ROOM]);
    /// assert_eq!(store.home_numbers(), Ok(HomeNumbers { nzi: 15, np: 806 }));
    /// assert_eq!(store.system_code(), Ok(SystemCode { lai: 0xABC, la: 8, roaming: 1, par: true }));
    /// # Ok(())
    /// # }
    /// ```
    pub fn system_code(&self) -> Result<SystemCode, Refusal> {
        value(K::system_code(self.bytes()), |packed| SystemCode {
            lai: bits(packed, 8, 12) as u16,
            la: bits(packed, 20, 4) as u8,
            roaming: bits(packed, 24, 2) as u8,
            par: bit(packed, 26),
        })
    }
}

/// The scan channels of a store, which it borrows. Behind the last there is none, so that the first refusal ends it.
#[derive(Clone, Debug)]
pub struct Channels<'a, K = Handheld> {
    left: Range<u32>,
    store: &'a [u8],
    kind: PhantomData<K>,
}

impl<K: Kind> Iterator for Channels<'_, K> {
    type Item = u32;

    fn next(&mut self) -> Option<u32> {
        channel::<K>(self.left.next()?, self.store).ok()
    }
}
