//! Dialled numbers, addresses and channels, both ways (GA/T 1056-2013).

use crate::answer::{byte, Refusal};
use crate::calls;

/// The address of one set; it cannot be passed for a group's.
#[derive(Clone, Copy, Debug, PartialEq, Eq, PartialOrd, Ord, Hash)]
pub struct IndividualAddress(pub u32);

/// The address of a group; it cannot be passed for an individual's.
#[derive(Clone, Copy, Debug, PartialEq, Eq, PartialOrd, Ord, Hash)]
pub struct GroupAddress(pub u32);

/// Bits 0 to 7 are the number, 8 to 39 the value. Inlined with the calls: a conversion is a dozen instructions, and a call of its own as many again.
#[inline]
fn value(packed: u64) -> Result<u32, Refusal> {
    match byte(packed, 0) {
        0 => Ok((packed >> 8) as u32),
        number => Err(Refusal::from_number(number)),
    }
}

/// The address behind eight dialled digits.
///
/// ```
/// use otap::{dialled_of_individual, individual_of_dialled, IndividualAddress, Refusal};
/// assert_eq!(individual_of_dialled(32_820_200), Ok(IndividualAddress(0x10_0001)));
/// assert_eq!(dialled_of_individual(IndividualAddress(0x10_0001)), Ok(32_820_200));
/// assert_eq!(individual_of_dialled(32_819_200), Err(Refusal::OutsidePlan));
/// ```
#[inline]
pub fn individual_of_dialled(dialled: u32) -> Result<IndividualAddress, Refusal> {
    value(calls::otap_individual_of_dialled(dialled)).map(IndividualAddress)
}

/// The group address behind eight dialled digits.
///
/// ```
/// use otap::{dialled_of_group, group_of_dialled, GroupAddress};
/// assert_eq!(group_of_dialled(32_820_900), Ok(GroupAddress(0x10_0001)));
/// assert_eq!(dialled_of_group(GroupAddress(0x10_0001)), Ok(32_820_900));
/// ```
#[inline]
pub fn group_of_dialled(dialled: u32) -> Result<GroupAddress, Refusal> {
    value(calls::otap_group_of_dialled(dialled)).map(GroupAddress)
}

/// The eight digits to dial for an individual.
#[inline]
pub fn dialled_of_individual(address: IndividualAddress) -> Result<u32, Refusal> {
    value(calls::otap_dialled_of_individual(address.0))
}

/// The eight digits to dial for a group.
#[inline]
pub fn dialled_of_group(address: GroupAddress) -> Result<u32, Refusal> {
    value(calls::otap_dialled_of_group(address.0))
}

/// The frequency that a set transmits on in this channel, in units of 100 Hz.
///
/// ```
/// assert_eq!(otap::transmit(640), Ok(3_560_000));
/// assert_eq!(otap::channel_of_transmit(3_560_000), Ok(640));
/// assert_eq!(otap::transmit(641), Err(otap::Refusal::NoSuchChannel));
/// ```
#[inline]
pub fn transmit(channel: u32) -> Result<u32, Refusal> {
    value(calls::otap_transmit(channel))
}

/// The frequency that a set receives on in this channel, in units of 100 Hz.
#[inline]
pub fn receive(channel: u32) -> Result<u32, Refusal> {
    value(calls::otap_receive(channel))
}

/// The channel in which a set transmits on this frequency, in units of 100 Hz.
#[inline]
pub fn channel_of_transmit(frequency: u32) -> Result<u32, Refusal> {
    value(calls::otap_channel_of_transmit(frequency))
}
