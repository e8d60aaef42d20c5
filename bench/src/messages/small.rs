//! Requests of one small setting, as dispatch sends them in the middle of a shift.

use super::*;

/// A name for each, and the request to a full store: what it sets is there already, so that a second one leaves what the first left.
pub fn of_one_setting(limits: Limits) -> [(&'static str, Vec<u8>); 7] {
    let contact = contact(0, short(limits), GroupAddress);
    let line = line(limits.lines - 1, short(limits));
    let absent = Setting::Channels { operation: Operation::Delete, channels: vec![640] };
    [
        ("small", request(&[home().write()])),
        ("small-with-hash", request(&[home().write(), last()])),
        ("small-channel", request(&[absent.write()])),
        ("small-status", request(&each_status_text(1))),
        ("small-group", request(&[group(0, short(limits))])),
        ("small-contact", request(&[group_contact_setting(Operation::Add, vec![contact])])),
        ("small-line", request(&[line_setting(Operation::Add, vec![line])])),
    ]
}
