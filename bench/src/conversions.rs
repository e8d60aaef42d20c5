//! The seven conversions on each side, a hundred numbers to a call.

use otap::{GroupAddress, IndividualAddress};
use otap_reference::reference::plan;
use std::hint::black_box;

pub struct Conversion {
    pub name: &'static str,
    first: u32,
    step: u32,
    rattle: Convert,
    plain: Convert,
    called: Convert,
}

type Convert = fn(u32) -> Option<u32>;

pub const ALL: [Conversion; 7] = [
    Conversion {
        name: "individual-of-dialled",
        first: 32_820_200,
        step: 4_003,
        rattle: |number| otap::individual_of_dialled(number).ok().map(|address| address.0),
        plain: |number| plan::individual(number).ok().map(|address| address.0),
        called: |number| unpacked(individual(number)),
    },
    Conversion {
        name: "group-of-dialled",
        first: 32_820_900,
        step: 1_000,
        rattle: |number| otap::group_of_dialled(number).ok().map(|address| address.0),
        plain: |number| plan::group(number).ok().map(|address| address.0),
        called: |number| unpacked(group(number)),
    },
    Conversion {
        name: "dialled-of-individual",
        first: 0x10_0001,
        step: 331,
        rattle: |address| otap::dialled_of_individual(IndividualAddress(address)).ok(),
        plain: |address| plan::dialled_individual(plan::IndividualAddress(address)).ok(),
        called: |number| unpacked(dialled_individual(number)),
    },
    Conversion {
        name: "dialled-of-group",
        first: 0x10_0001,
        step: 61,
        rattle: |address| otap::dialled_of_group(GroupAddress(address)).ok(),
        plain: |address| plan::dialled_group(plan::GroupAddress(address)).ok(),
        called: |number| unpacked(dialled_group(number)),
    },
    Conversion {
        name: "transmit",
        first: 1,
        step: 6,
        rattle: |channel| otap::transmit(channel).ok(),
        plain: |channel| plan::transmit(channel).ok(),
        called: |number| unpacked(transmit(number)),
    },
    Conversion {
        name: "receive",
        first: 1,
        step: 6,
        rattle: |channel| otap::receive(channel).ok(),
        plain: |channel| plan::receive(channel).ok(),
        called: |number| unpacked(receive(number)),
    },
    Conversion {
        name: "channel-of-transmit",
        first: 3_510_125,
        step: 375,
        rattle: |frequency| otap::channel_of_transmit(frequency).ok(),
        plain: |frequency| plan::channel(frequency).ok(),
        called: |number| unpacked(channel(number)),
    },
];

/// Plain Rust behind the border that the archive has: a call that is not inlined, with its answer packed, bits 0 to 7 the number and then the value.
#[inline(never)]
extern "C" fn individual(number: u32) -> u64 {
    packed(plan::individual(number).map(|address| address.0))
}

#[inline(never)]
extern "C" fn group(number: u32) -> u64 {
    packed(plan::group(number).map(|address| address.0))
}

#[inline(never)]
extern "C" fn dialled_individual(address: u32) -> u64 {
    packed(plan::dialled_individual(plan::IndividualAddress(address)))
}

#[inline(never)]
extern "C" fn dialled_group(address: u32) -> u64 {
    packed(plan::dialled_group(plan::GroupAddress(address)))
}

#[inline(never)]
extern "C" fn transmit(channel: u32) -> u64 {
    packed(plan::transmit(channel))
}

#[inline(never)]
extern "C" fn receive(channel: u32) -> u64 {
    packed(plan::receive(channel))
}

#[inline(never)]
extern "C" fn channel(frequency: u32) -> u64 {
    packed(plan::channel(frequency))
}

fn packed(answer: Result<u32, u8>) -> u64 {
    answer.map_or_else(u64::from, |value| u64::from(value) << 8)
}

fn unpacked(packed: u64) -> Option<u32> {
    (packed as u8 == 0).then_some((packed >> 8) as u32)
}

impl Conversion {
    fn each(&self, convert: Convert) {
        for place in 0..100 {
            black_box(convert(black_box(self.first + place * self.step)));
        }
    }

    pub fn rattle(&self) {
        self.each(self.rattle);
    }

    pub fn plain(&self) {
        self.each(self.plain);
    }

    /// Plain behind the archive's border.
    pub fn called(&self) {
        self.each(self.called);
    }
}
