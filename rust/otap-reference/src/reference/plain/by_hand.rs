//! What the cases of the plain engine share.

use super::*;
use crate::reference::by_hand::{bytes, request_of, settings_of_size};
use crate::reference::message::{request, request_as, REQUEST_HEAD};
use crate::reference::texts::Coding;

/// A started area.
pub fn started() -> Vec<u8> {
    let mut area = vec![0xEE; AREA];
    assert_eq!(plain_start(&mut area), 0);
    area
}

/// What taking answers, and the whole buffer after it, which held EE. Only a request that is taken changes the area, and 10 or more writes nothing.
pub fn take(area: &mut [u8], message: &[u8]) -> (Answer, [u8; REPLY_ROOM]) {
    let (before, mut reply) = (area.to_vec(), [0xEE; REPLY_ROOM]);
    let answer = plain_take(message, area, &mut reply);
    assert!(reply[answer.length..].iter().all(|&byte| byte == 0xEE));
    if answer.number >= 10 {
        assert_eq!(answer, Answer { number: answer.number, ..Answer::default() });
    }
    let keeps = answer.number == 0 && is_request(message);
    assert_eq!(area != before, keeps, "{message:02X?}");
    (answer, reply)
}

/// Number and failed ID.
pub fn number(area: &mut [u8], message: &[u8]) -> (u8, u8) {
    let answer = take(area, message).0;
    (answer.number, answer.failed)
}

/// An area after these requests under 0111, each of these settings in hex, which must all be taken.
pub fn after(requests: &[&[&str]]) -> Vec<u8> {
    let mut area = started();
    for settings in requests {
        assert_eq!(number(&mut area, &request_of(settings)), (0, 0), "{settings:?}");
    }
    area
}

/// The same under 0100.
pub fn eight_bit(settings: &[&str]) -> Vec<u8> {
    let settings: Vec<_> = settings.iter().map(|setting| bytes(setting)).collect();
    request_as(Coding::Eight, &settings)
}

/// A good request of exactly so many bytes, at least 17.
pub fn of_size(size: usize) -> Vec<u8> {
    let message = request(&settings_of_size(size - REQUEST_HEAD));
    assert_eq!(message.len(), size);
    message
}

/// An area with just so many bytes left behind the used ones: seven of the longest requests, and one more.
pub fn with_left(left: usize) -> Vec<u8> {
    let mut area = started();
    let last = AREA - USED - 7 * (LENGTH + HANDHELD.message) - LENGTH - left;
    for size in [HANDHELD.message; 7].into_iter().chain([last]) {
        assert_eq!(number(&mut area, &of_size(size)), (0, 0));
    }
    assert_eq!(used(&area), AREA - USED - left);
    area
}
