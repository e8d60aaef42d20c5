//! The two kinds of set that the suites are run for.

use crate::raw::Raw;
use otap::report::{self, ReadReport};
use otap::{Handheld, Kind, NotJoined, Refusal, Vehicle};
use otap_reference::reference::limits::{Limits, HANDHELD, VEHICLE};
use std::fmt::Debug;
use std::ops::Range;

/// What a suite needs of a kind: its face, its limits in the reference, its C functions, and what the office has for it.
pub trait Tried: Kind + Raw + Copy + Debug {
    const LIMITS: Limits;

    /// As a command says it.
    const NAME: &'static str;

    /// The long suites make one run of so many: a vehicle's calls take twice as long, and are the hand-held's with other limits.
    const SHARE: usize;

    /// The seeds of a long suite.
    fn seeds(first: u64, many: u64) -> Range<u64> {
        first..first + many / Self::SHARE as u64
    }

    fn read(message: &[u8]) -> Result<ReadReport<'_>, Refusal>;

    fn join<'b>(first: &[u8], second: &[u8], buffer: &'b mut [u8]) -> Result<&'b [u8], NotJoined>;

    fn updates(first: &[u8], second: &[u8], request: &[u8]) -> Result<bool, Refusal>;

    fn propose<'b>(first: &[u8], second: &[u8], buffer: &'b mut [u8]) -> Result<&'b [u8], Refusal>;
}

macro_rules! tried {
    ($kind:ty, $name:literal, $limits:expr, $share:expr, $read:path, $join:path, $updates:path, $propose:path) => {
        impl Tried for $kind {
            const LIMITS: Limits = $limits;
            const NAME: &'static str = $name;
            const SHARE: usize = $share;

            fn read(message: &[u8]) -> Result<ReadReport<'_>, Refusal> {
                $read(message)
            }

            fn join<'b>(
                first: &[u8],
                second: &[u8],
                buffer: &'b mut [u8],
            ) -> Result<&'b [u8], NotJoined> {
                $join(first, second, buffer)
            }

            fn updates(first: &[u8], second: &[u8], request: &[u8]) -> Result<bool, Refusal> {
                $updates(first, second, request)
            }

            fn propose<'b>(
                first: &[u8],
                second: &[u8],
                buffer: &'b mut [u8],
            ) -> Result<&'b [u8], Refusal> {
                $propose(first, second, buffer)
            }
        }
    };
}

tried!(Handheld, "handheld", HANDHELD, 1, report::read, otap::join, otap::updates, otap::propose);
tried!(
    Vehicle,
    "vehicle",
    VEHICLE,
    3,
    report::read_vehicle,
    otap::join_vehicle,
    otap::updates_vehicle,
    otap::propose_vehicle
);

/// Makes two tests of each function, which is generic over the kind of set.
#[macro_export]
macro_rules! for_both_sets {
    ($($name:ident),+ $(,)?) => {
        mod handheld {
            $(
                #[test]
                fn $name() {
                    super::$name::<otap::Handheld>();
                }
            )+
        }
        mod vehicle {
            $(
                #[test]
                fn $name() {
                    super::$name::<otap::Vehicle>();
                }
            )+
        }
    };
}
