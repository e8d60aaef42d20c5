//! The seven conversions over their whole ranges, against the reference.

use otap::{GroupAddress, IndividualAddress, Refusal};
use otap_reference::reference::plan;

const DIALLED: u32 = 100_000_000;
const ADDRESSES: u32 = 1 << 24;

/// Numbers beyond a range: its end, powers of two, and every last one.
fn beyond(end: u32) -> impl Iterator<Item = u32> {
    let powers =
        (0..32).flat_map(|place| (0..3).map(move |step| (1u32 << place).wrapping_add(step) - 1));
    let near = end..=end + 1_000;
    let last = u32::MAX - 1_000..=u32::MAX;
    powers.chain(near).chain(last).filter(move |&number| number >= end)
}

fn numbered<T>(answer: Result<T, Refusal>) -> Result<T, u8> {
    answer.map_err(Refusal::number)
}

#[test]
fn every_dialled_number_of_an_individual() {
    for dialled in (0..DIALLED).chain(beyond(DIALLED)) {
        let answer = numbered(otap::individual_of_dialled(dialled)).map(|address| address.0);
        assert_eq!(answer, plan::individual(dialled).map(|address| address.0), "{dialled}");
    }
}

#[test]
fn every_dialled_number_of_a_group() {
    for dialled in (0..DIALLED).chain(beyond(DIALLED)) {
        let answer = numbered(otap::group_of_dialled(dialled)).map(|address| address.0);
        assert_eq!(answer, plan::group(dialled).map(|address| address.0), "{dialled}");
    }
}

#[test]
fn every_address() {
    for address in (0..ADDRESSES).chain(beyond(ADDRESSES)) {
        let individual = numbered(otap::dialled_of_individual(IndividualAddress(address)));
        let expected = plan::dialled_individual(plan::IndividualAddress(address));
        assert_eq!(individual, expected, "{address:X}");
        let group = numbered(otap::dialled_of_group(GroupAddress(address)));
        assert_eq!(group, plan::dialled_group(plan::GroupAddress(address)), "{address:X}");
    }
}

#[test]
fn every_channel() {
    for channel in (0..100_000).chain(beyond(100_000)) {
        assert_eq!(numbered(otap::transmit(channel)), plan::transmit(channel), "{channel}");
        assert_eq!(numbered(otap::receive(channel)), plan::receive(channel), "{channel}");
    }
}

#[test]
fn every_frequency_in_and_around_the_band() {
    let band = 3_400_000..3_800_000;
    let far = beyond(3_800_000).chain(0..10_000);
    for frequency in band.chain(far) {
        let answer = numbered(otap::channel_of_transmit(frequency));
        assert_eq!(answer, plan::channel(frequency), "{frequency}");
    }
}
