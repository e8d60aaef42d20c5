//! Where the time of the store's check goes: stores damaged so that it ends earlier and earlier.

use crate::clock;
use crate::messages;
use crate::sides::{Call, Rattle, Side};
use crate::timing::median;
use otap::{Handheld, Kind, Set, Vehicle};
use otap_reference::inputs::pokes::order_lines;
use otap_reference::layout::{fast, Regions, Slots};
use otap_reference::reference::limits::{Limits, HANDHELD, VEHICLE};
use std::hint::black_box;

const BATCHES: usize = 101;
const CALLS: u32 = 100;

pub fn table() {
    println!(
        "The check alone, by the counts, which are read behind it: median of {BATCHES} batches of {CALLS} calls."
    );
    println!();
    println!("| store | Rattle ns | plain ns |");
    println!("|---|---|---|");
    for (name, bytes) in stores() {
        row::<Handheld>(name, bytes, HANDHELD);
    }
    row::<Vehicle>("a full vehicle's: 128 lines", full::<Vehicle>(VEHICLE).bytes, VEHICLE);
    row::<Vehicle>("a fresh vehicle's", Rattle::<Vehicle>::fresh().bytes, VEHICLE);
}

fn row<K: Kind>(name: &str, bytes: Vec<u8>, limits: Limits) {
    println!("| {name} | {:.0} | {:.0} |", rattle::<K>(bytes.clone()), plain(&bytes, limits));
}

fn full<K: Kind>(limits: Limits) -> Rattle<K> {
    let mut full = Rattle::fresh();
    for message in messages::filling(limits) {
        assert_eq!(full.call(&Call::Commit(message)), 0);
    }
    full
}

fn stores() -> Vec<(&'static str, Vec<u8>)> {
    let full = full::<Handheld>(HANDHELD);
    let changed = |change: fn(&Regions, &mut [u8])| {
        let mut bytes = full.bytes.clone();
        change(&HANDHELD.regions(), &mut bytes);
        bytes
    };
    let without = |message| {
        let mut fewer = full.clone();
        assert_eq!(fewer.call(&Call::Commit(message)), 0);
        fewer.bytes
    };
    vec![
        ("a fresh one", Rattle::<Handheld>::fresh().bytes),
        ("full: 64 group contacts, 64 individual contacts and 32 lines", full.bytes.clone()),
        ("full, but for both lists of contacts", without(messages::without_contacts())),
        ("full, but for the lines", without(messages::without_lines())),
        ("full, addresses of contacts with other first bytes", changed(other_first_bytes)),
        ("full, line numbers with other first digits", changed(other_first_digits)),
        (
            "last two group contacts equal: ends behind their list",
            changed(|regions, bytes| equal_last(regions.group_contacts, bytes)),
        ),
        (
            "first unit of the area 0: ends before the spare bytes",
            changed(|regions, bytes| bytes[regions.area.start..][..2].fill(0)),
        ),
        (
            "last byte of the order wrong: ends before the area",
            changed(|regions, bytes| bytes[regions.order.end - 1] ^= 1),
        ),
        (
            "last two lines equal: ends in their order",
            changed(|regions, bytes| equal_last(regions.lines, bytes)),
        ),
        (
            "last line wrong: ends before their order",
            changed(|regions, bytes| bytes[regions.lines.slot(31)] = 0xFF),
        ),
        ("first byte wrong: ends at once", changed(|_, bytes| bytes[0] = 0xFF)),
    ]
}

fn other_first_digits(regions: &Regions, bytes: &mut [u8]) {
    for place in 0..regions.lines.places {
        bytes[regions.lines.slot(place) + 2] = 1 + (place % 10) as u8;
    }
    order_lines(HANDHELD, bytes);
}

fn other_first_bytes(regions: &Regions, bytes: &mut [u8]) {
    for contacts in [regions.group_contacts, regions.individual_contacts] {
        for place in 0..contacts.places {
            bytes[contacts.slot(place) + 1] = 0x10 + place as u8;
        }
    }
}

/// Makes the last entry of a full list the one before it.
fn equal_last(list: Slots, bytes: &mut [u8]) {
    let (from, to) = (list.slot(list.places - 2), list.slot(list.places - 1));
    bytes.copy_within(from..to, to);
}

fn rattle<K: Kind>(mut bytes: Vec<u8>) -> f64 {
    let store = Set::<K>::lent(&mut bytes);
    timed(|| store.counts().is_ok())
}

fn plain(bytes: &[u8], limits: Limits) -> f64 {
    timed(|| fast::is_store(black_box(bytes), limits))
}

/// Nanoseconds of one call.
fn timed(mut call: impl FnMut() -> bool) -> f64 {
    let batch = |_| {
        let start = clock::now();
        for _ in 0..CALLS {
            black_box(call());
        }
        (clock::now() - start).as_nanos() as f64 / f64::from(CALLS)
    };
    median((0..BATCHES).map(batch).collect())
}
