//! What may be joined and what is written of it, byte by byte.

use super::*;
use crate::reference::by_hand::{bytes, joined, number, request_of, settings_of_size};
use crate::reference::limits::HANDHELD;
use crate::reference::message::{request, request_as, REQUEST_HEAD};
use crate::reference::tables::Set;
use crate::reference::texts::Coding;

/// Adds PABX 2345 without a text and PABX 123 with one.
const TWO_LINES: &str = "CA 00 0F 42 02 23 45 FF 00 00 12 3F 00 41 00 00";
/// Document 01's case: the channels become 241, 640.
const CHANNELS: &str = "CE 00 07 C0 02 0F 12 80";
const HOME: &str = "CD 00 05 07 E4 C0";

fn homes(count: usize) -> Vec<u8> {
    request_of(&vec![HOME; count])
}

fn of_size(size: usize) -> Vec<u8> {
    let message = request(&settings_of_size(size - REQUEST_HEAD));
    assert_eq!(message.len(), size);
    message
}

#[test]
fn two_lines_and_a_channel_list() {
    let first = bytes("02 02 00 14 08 07 08 01 CA 00 0F 42 02 23 45 FF 00 00 12 3F 00 41 00 00");
    let second = bytes("02 02 00 0C 08 07 08 01 CE 00 07 C0 02 0F 12 80");
    let wanted = bytes(
        "02 02 00 1C 08 07 08 02 CA 00 0F 42 02 23 45 FF 00 00 12 3F 00 41 00 00 \
         CE 00 07 C0 02 0F 12 80",
    );
    assert_eq!(joined(&first, &second), Ok(wanted));
    // The other way round the settings change places, and nothing else does.
    assert_eq!(joined(&second, &first), Ok(request_of(&[CHANNELS, TWO_LINES])));
}

#[test]
fn a_request_and_itself() {
    let first = request_of(&[HOME, CHANNELS]);
    assert_eq!(joined(&first, &first), Ok(request_of(&[HOME, CHANNELS, HOME, CHANNELS])));
}

/// Lengths of 0 are written as the true one and reserved bits as 0; those inside the settings stay as they came.
#[test]
fn a_new_header() {
    let wanted = bytes("02 02 00 11 08 07 08 02 CD 00 05 07 E4 DF CE 00 06 7C 01 0F 1F");
    for (first, second) in [
        ("02 02 00 0A 08 07 08 01", "02 02 00 0B 08 07 08 01"),
        ("02 02 00 00 08 07 08 01", "02 02 00 0B 08 07 08 01"),
        ("02 02 00 0A 08 07 08 01", "02 02 00 00 08 07 08 01"),
        ("02 02 00 00 08 F7 08 01", "02 02 00 00 08 57 08 01"),
        ("02 02 00 0A 08 17 08 01", "02 02 00 00 08 87 08 01"),
    ] {
        let first = [bytes(first), bytes("CD 00 05 07 E4 DF")].concat();
        let second = [bytes(second), bytes("CE 00 06 7C 01 0F 1F")].concat();
        assert_eq!(joined(&first, &second).as_ref(), Ok(&wanted));
    }
}

#[test]
fn eight_bit_texts() {
    let first = bytes("02 02 00 0E 08 04 08 01 CA 00 09 42 01 23 45 FF 41 00");
    let second = bytes("02 02 00 0C 08 04 08 01 CC 00 07 41 05 41 42 00");
    let wanted =
        bytes("02 02 00 16 08 04 08 02 CA 00 09 42 01 23 45 FF 41 00 CC 00 07 41 05 41 42 00");
    assert_eq!(joined(&first, &second), Ok(wanted));
}

/// Also where no text tells them apart.
#[test]
fn two_coding_types() {
    let [eight, unicode] = Coding::ALL.map(|coding| request_as(coding, &[bytes(HOME)]));
    assert_eq!(joined(&eight, &unicode), Err(of_neither(4)));
    assert_eq!(joined(&unicode, &eight), Err(of_neither(4)));
    assert!(joined(&eight, &eight).is_ok_and(|message| message[5] == 0b0100));
    assert!(joined(&unicode, &unicode).is_ok_and(|message| message[5] == 0b0111));
}

#[test]
fn at_most_255_settings() {
    for (first, second) in [(127, 128), (128, 127), (1, 254), (254, 1)] {
        assert_eq!(joined(&homes(first), &homes(second)), Ok(homes(255)));
    }
    for (first, second) in [(128, 128), (1, 255), (255, 1), (255, 255)] {
        assert_eq!(joined(&homes(first), &homes(second)), Err(of_neither(4)));
    }
}

/// Two headers become one: 4,000 and 104 bytes are 4,096.
#[test]
fn at_most_4096_bytes() {
    for (first, second) in [(4_000, 104), (104, 4_000), (2_052, 2_052), (4_070, 34)] {
        let message = joined(&of_size(first), &of_size(second)).expect("just so long");
        assert_eq!((message.len(), &message[2..4]), (4_096, &[0x0F, 0xFC][..]));
        assert_eq!(number(&mut Set::fresh(HANDHELD), &message), (0, 0));
    }
    for (first, second) in [(4_000, 105), (4_000, 200), (200, 4_000), (4_096, 4_096)] {
        assert_eq!(joined(&of_size(first), &of_size(second)), Err(of_neither(12)));
    }
    // A request of the full size has no room for any other.
    let least = request_of(&["CB 00 03 80"]);
    assert_eq!(least.len(), 12);
    assert_eq!(joined(&of_size(4_092), &least).map(|message| message.len()), Ok(4_096));
    assert_eq!(joined(&of_size(4_096), &least), Err(of_neither(12)));
}

/// 15 comes before all that is wrong with the requests, and larger buffers do no harm.
#[test]
fn the_buffer() {
    let good = homes(1);
    for room in [0, 1, 20, HANDHELD.message - 1] {
        for (first, second) in [(&good[..], &good[..]), (&[], &good), (&good, &[]), (&[], &[])] {
            let mut buffer = vec![0xEE; room];
            assert_eq!(join(first, second, HANDHELD, &mut buffer), Err(of_neither(15)));
            assert!(buffer.iter().all(|&byte| byte == 0xEE));
        }
    }
    for room in [HANDHELD.message, HANDHELD.message + 1, 2 * HANDHELD.message] {
        let mut buffer = vec![0xEE; room];
        assert_eq!(join(&good, &good, HANDHELD, &mut buffer), Ok(20));
        assert_eq!(buffer[..20], homes(2));
        assert!(buffer[20..].iter().all(|&byte| byte == 0xEE));
    }
}
