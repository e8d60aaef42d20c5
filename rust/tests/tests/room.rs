//! Which settings have room, setting by setting: a property of the reference itself.

use otap_reference::inputs::Inputs;
use otap_reference::reference::limits::{Limits, Texts};
use otap_reference::reference::message::request_as;
use otap_reference::reference::numbers::{NO_ROOM, TAKEN};
use otap_reference::reference::tables::Set;
use otap_reference::reference::texts::Coding;
use otap_tests::for_both_sets;
use otap_tests::sets::Tried;
use otap_tests::{number_in, settings_of};

for_both_sets!(room_setting_by_setting);

/// A request is refused at the first setting behind which the settings so far have no place, or, of a hand-held, hold more than the area: each set is made anew
/// from the first settings by one without a sum.
fn room_setting_by_setting<K: Tried>() {
    let (mut over, mut full, mut taken) = (0, 0, 0);
    let placed = Limits { texts: Texts::Placed, ..K::LIMITS };
    for seed in K::seeds(300, 60) {
        let (mut inputs, mut set) = (Inputs::new(seed, K::LIMITS), Set::fresh(K::LIMITS));
        for _ in 0..100 {
            let message = inputs.message();
            let before = set.clone();
            let said = number_in(&message, &mut set);
            if !matches!(said.0, TAKEN | NO_ROOM) || message[6] != 8 {
                continue;
            }
            let wanted = (1..=message[7]).find(|&count| {
                let mut unbound = Set { limits: placed, ..before.clone() };
                let number = number_in(&first_settings(&message, count), &mut unbound).0;
                full += usize::from(number == NO_ROOM);
                let passes = K::TEXT_BYTES.is_some_and(|area| unbound.tables.text_bytes() > area);
                over += usize::from(passes);
                number == NO_ROOM || passes
            });
            assert_eq!(said, wanted.map_or((TAKEN, 0), |place| (NO_ROOM, place)), "{message:02X?}");
            taken += usize::from(wanted.is_none());
        }
    }
    println!("{over} over the area, {full} without a place, {taken} taken");
    assert!(full > 100 / K::SHARE && taken > 1_000 / K::SHARE);
    assert_eq!(over > 20, K::TEXT_BYTES.is_some());
}

/// A request with the first settings of one that has more, under the same coding type.
fn first_settings(message: &[u8], count: u8) -> Vec<u8> {
    let coding = Coding::from_number(message[5] & 15).expect("its settings were read");
    let settings = settings_of(message, coding);
    let bytes: Vec<_> =
        settings.iter().take(count.into()).map(|(_, bytes)| bytes.to_vec()).collect();
    request_as(coding, &bytes)
}
