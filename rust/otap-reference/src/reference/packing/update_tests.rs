//! The check and the proposer, packed, by hand.

use super::{packed_check, packed_proposal};
use crate::reference::by_hand::{request_of, taken};
use crate::reference::limits::HANDHELD;
use crate::reference::tables::Set;
use crate::reference::updating::{check_update, propose};

const CHANNEL: &str = "CE 00 06 40 01 0F 1F";

#[test]
fn checks() {
    let (first, second) = (Set::fresh(HANDHELD), taken(&[CHANNEL]));
    let asked = |one, other| packed_check(check_update(one, other, &request_of(&[CHANNEL])));
    assert_eq!(asked(Some(&first), Some(&second)), 0x100);
    assert_eq!(asked(Some(&second), Some(&first)), 0);
    assert_eq!([asked(None, Some(&second)), asked(Some(&first), None)], [11; 2]);
}

#[test]
fn proposals() {
    let (first, second) = (Set::fresh(HANDHELD), taken(&[CHANNEL]));
    let asked = |one, other, room| {
        let mut buffer = vec![0; room];
        packed_proposal(propose(one, other, &mut buffer))
    };
    let room = HANDHELD.message;
    // 02 02 00 0B 08 07 08 01 CE 00 06 C0 01 0F 1F
    assert_eq!(asked(Some(&first), Some(&second), room), 0x000F_0000);
    assert_eq!(asked(Some(&first), Some(&first), room), 19);
    assert_eq!(asked(Some(&first), Some(&second), room - 1), 15);
    assert_eq!(asked(None, Some(&second), room - 1), 11);
}

#[test]
fn the_widest() {
    assert_eq!([packed_check(Err(255)), packed_check(Ok(true))], [0xFF, 0x100]);
    assert_eq!(packed_proposal(Ok(8_192)), 0x2000_0000);
}
