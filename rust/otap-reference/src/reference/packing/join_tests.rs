//! The join call, packed, by hand.

use super::packed_join;
use crate::reference::by_hand::{request_of, settings_of_size};
use crate::reference::joining::{join, Refused};
use crate::reference::limits::HANDHELD;
use crate::reference::message::{request, REQUEST_HEAD};

const HOME: &str = "CD 00 05 07 E4 C0";

fn asked(first: &[u8], second: &[u8]) -> u64 {
    packed_join(join(first, second, HANDHELD, &mut [0; HANDHELD.message]))
}

#[test]
fn joined_requests() {
    let good = request_of(&[HOME]);
    assert_eq!(asked(&good, &good), 0x0014_0000);
    let [long, short] = [4_000, 104].map(|size| request(&settings_of_size(size - REQUEST_HEAD)));
    assert_eq!(asked(&long, &short), 0x1000_0000);
}

/// Number and failed ID, and whose they are; no length.
#[test]
fn refusals() {
    let good = request_of(&[HOME]);
    let unknown = request_of(&[HOME, "C7"]);
    assert_eq!([asked(&unknown, &good), asked(&good, &unknown)], [0x0203, 0x1_0000_0203]);
    assert_eq!([asked(&[], &good), asked(&good, &[])], [12, 0x1_0000_000C]);
    let cut = &good[..7];
    assert_eq!([asked(cut, &good), asked(&good, cut)], [13, 0x1_0000_000D]);
    let many = request_of(&[HOME; 128]);
    assert_eq!(asked(&many, &many), 4);
    let short = join(&good, &good, HANDHELD, &mut [0; HANDHELD.message - 1]);
    assert_eq!(packed_join(short), 15);
}

#[test]
fn the_widest() {
    let refused = Refused { number: 255, failed: 255, second: true };
    assert_eq!(packed_join(Err(refused)), 0x1_0000_FFFF);
    let last = request_of(&[[HOME; 254].as_slice(), &["FF 00 03 00"]].concat());
    assert_eq!(asked(&request_of(&[HOME]), &last), 0x1_0000_FF04);
}
