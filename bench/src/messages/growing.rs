//! Requests by how much they have, and full stores by how many lines they hold.

use super::*;

/// A request of so many settings without a text.
pub fn of_home_numbers(count: usize) -> Vec<u8> {
    request(&repeated(count, home()))
}

/// A request of so many settings of one text each.
pub fn of_single_status_texts(count: usize) -> Vec<u8> {
    request(&each_status_text(count))
}

/// A request of as many lines as fit so many bytes, each over the one of its number.
pub fn of_lines_over(limits: Limits, bytes: usize) -> Vec<u8> {
    let within = Limits { message: bytes, ..limits };
    full_as(within, Coding::Unicode, |count| {
        let entries: Vec<_> =
            (0..count).map(|place| line(place % limits.lines, short(limits))).collect();
        let chunks = entries.chunks(MOST_ENTRIES);
        chunks.map(|chunk| line_setting(Operation::Add, chunk.to_vec())).collect()
    })
}

/// What leaves so many lines of a full store.
pub fn holding_lines(limits: Limits, count: usize) -> Vec<u8> {
    if count == 0 {
        without_lines()
    } else {
        request(&lines(limits, count))
    }
}

/// The last of so many lines, over itself.
pub fn of_last_line(limits: Limits, count: usize) -> Vec<u8> {
    request(&[line_setting(Operation::Add, vec![line(count - 1, short(limits))])])
}

/// Who calls from the last of so many lines, and its row; of none anybody.
pub fn last_caller(count: usize) -> (Vec<u8>, Option<u32>) {
    (line(count.max(1) - 1, 0).digits, count.checked_sub(1).map(|last| last as u32))
}
