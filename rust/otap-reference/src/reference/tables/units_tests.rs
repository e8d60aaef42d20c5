//! The units that a request carries on from setting to setting are those of all texts, counted anew.

use super::*;
use crate::inputs::Inputs;
use crate::reference::commit::each_setting;
use crate::reference::limits::BOTH;
use crate::reference::message::{of_kind, REQUEST};

#[test]
fn units_are_counted_on() {
    for limits in BOTH {
        let (mut changed, mut tables) = (0, Tables::default());
        for seed in 0..30 {
            let mut inputs = Inputs::new(seed, limits);
            for message in (0..60).map(|_| inputs.message()) {
                changed += usize::from(taken(&message, &mut tables, limits));
            }
        }
        assert!(changed > 300, "{changed} requests changed a text");
    }
}

/// Whether a request was taken, after which other texts are held.
fn taken(message: &[u8], tables: &mut Tables, limits: Limits) -> bool {
    let Ok(opened) = of_kind(message, limits, REQUEST) else { return false };
    let mut next = tables.clone();
    let mut units = next.units();
    let read = each_setting(&opened, |setting| {
        let room = next.apply_counting(setting, limits, &mut units);
        assert!(room.is_err() || units == next.units(), "{units} of {}", next.units());
        room
    });
    if read.is_err() {
        return false;
    }
    let changed = !next.texts().eq(tables.texts());
    *tables = next;
    changed
}
