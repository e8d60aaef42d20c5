//! Over-the-air settings of a PDT radio (document 01): the safe face of the verified archives, `libotap_handheld.a` and what the features add.
//!
//! A [`Store`], the settings of a hand-held, stands over bytes that the firmware lends and keeps nothing else; conversions of numbers,
//! addresses and channels need none. No std, no allocation, no panic. `build.rs` finds the archive of the
//! target where `./archive` writes it, or in the folder that `OTAP_ARCHIVE_DIR` names.
//!
//! Firmware of a hand-held links `libotap_handheld.a` alone, and three features, off by default, add the others. With `vehicle`, which links
//! `libotap_vehicle.a` too, `VehicleStore` is the same over a vehicle's bytes: both are a [`Set`], and only the sizes differ. With `office`,
//! which links `libotap_office.a` too, `report`, `join`, `updates` and `propose` are what the office needs, of either kind of set. With `desk`, which
//! links `libotap_desk.a` too, `Desk` is a desk emulator of a hand-held: it keeps the requests that were taken, and no tables.
//!
//! ```
//! # fn main() -> Result<(), otap::Refusal> {
//! let mut bytes = [0; otap::STORE_SIZE];
//! let store = otap::Store::start(&mut bytes)?;
//! let mut scratch = [0; otap::SCRATCH_ROOM];
//! let none = store.row(otap::Table::Groups, 0, &mut scratch);
//! assert_eq!(none, Err(otap::Refusal::NoSuchRow));
//! # Ok(())
//! # }
//! ```
#![no_std]
#![deny(unsafe_code)]
#![warn(missing_docs)]

mod answer;
mod callers;
mod calls;
mod conversions;
mod counts;
#[cfg(feature = "desk")]
mod desk;
mod drawn;
mod entries;
#[cfg(feature = "office")]
mod joining;
mod kinds;
mod part;
#[cfg(feature = "office")]
pub mod report;
mod reporting;
mod row;
mod settings;
mod store;
#[cfg(feature = "office")]
mod updating;

pub use answer::{Answer, Outcome, Refusal};
pub use callers::{MOST_DIGITS, PABX, PSTN};
pub use conversions::{
    channel_of_transmit, dialled_of_group, dialled_of_individual, group_of_dialled,
    individual_of_dialled, receive, transmit, GroupAddress, IndividualAddress,
};
pub use counts::{Counts, MOST_CHANNELS, MOST_LINES};
#[cfg(feature = "desk")]
pub use desk::{Desk, AREA_SIZE, DESK_SCRATCH_ROOM};
pub use drawn::{DrawnRow, Rows};
pub use entries::{Attribute, CallFlags, Entries, Entry};
#[cfg(feature = "office")]
pub use joining::{join, join_vehicle, NotJoined, JOIN_ROOM, VEHICLE_JOIN_ROOM};
pub use kinds::{Handheld, Kind, Sizes, Vehicle};
pub use part::Part;
pub use reporting::{Report, REPORT_ROOM};
pub use row::{Row, Slice, Table, CONTACT_ROWS};
pub use settings::{Channels, EmergencyKey, HomeNumbers, KeyTarget, SystemCode};
#[cfg(feature = "vehicle")]
pub use store::VehicleStore;
pub use store::{Set, Store, EXPORT_ROOM, LONGEST_MESSAGE, REPLY_ROOM, SCRATCH_ROOM, STORE_SIZE};
#[cfg(feature = "office")]
pub use updating::{
    propose, propose_vehicle, updates, updates_vehicle, PROPOSAL_ROOM, VEHICLE_PROPOSAL_ROOM,
};

// The README's snippet is compiled and run with the doc examples.
#[cfg(doctest)]
#[doc = include_str!("../../../README.md")]
struct Readme;
