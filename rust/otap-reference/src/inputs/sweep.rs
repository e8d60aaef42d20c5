//! Every one-byte change of some small good requests and queries, under both coding types.

use super::draft::carried;

/// A coding type, and data with one or more settings: every type with every operation among them, and those with texts under both.
pub const BASES: [(u8, &[u8]); 43] = [
    (7, &[8, 1, 0xCA, 0, 9, 0x42, 1, 0x23, 0x45, 0xFF, 0, 0]),
    (7, &[8, 1, 0xCA, 0, 13, 0xC0, 2, 0x12, 0x3F, 0, 0x41, 0, 0, 0x1F, 0, 0]),
    (7, &[8, 1, 0xCA, 0, 8, 0x80, 1, 0x12, 0x3F, 0, 0]),
    (7, &[8, 1, 0xCB, 0, 6, 0x78, 0x10, 0x00, 0x01]),
    (7, &[8, 2, 0xCB, 0, 3, 0xC8, 0xFF, 0, 3, 0xC0]),
    (7, &[8, 1, 0xCC, 0, 13, 0xC2, 5, 0, 0x41, 0, 0, 6, 0, 0x41, 0, 0]),
    (7, &[8, 1, 0xCC, 0, 6, 0x81, 5, 0, 0]),
    (7, &[8, 1, 0xCC, 0, 8, 0x41, 63, 0x4E, 0x2D, 0, 0]),
    (7, &[8, 1, 0xCD, 0, 5, 0x07, 0xE4, 0xC0]),
    (7, &[8, 1, 0xCE, 0, 7, 0xC0, 2, 0x0F, 0x12, 0x80]),
    (7, &[8, 1, 0xCE, 0, 6, 0x80, 1, 0x0F, 0x1F]),
    (7, &[8, 2, 0xCE, 0, 9, 0x40, 3, 0x0F, 0x12, 0x80, 0x0F, 0x1F, 0xCD, 0, 5, 0, 0, 0]),
    (7, &[8, 1, 0xCF, 0, 5, 0x12, 0x38, 0xA0]),
    (7, &[8, 1, 0xD0, 0, 12, 0xC0, 2, 0x20, 0, 0, 0x7F, 0, 0x41, 0, 0]),
    (7, &[8, 1, 0xD1, 0, 11, 0x60, 0x0F, 0x10, 0x00, 0x01, 0, 0x41, 0, 0]),
    (7, &[8, 1, 0xD1, 0, 9, 0x80, 0x0F, 0, 0, 0, 0, 0]),
    (7, &[8, 2, 0xD2, 0, 9, 0x40, 0x0F, 0xFF, 0xFF, 0xFF, 0, 0, 0xFF, 0, 7, 0xC1, 1, 2, 3, 4]),
    (7, &[8, 1, 0xFF, 0, 13, 2, 1, 2, 3, 4, 5, 6, 7, 8, 9, 10]),
    (7, &[13, 1, 1, 2, 3, 4]),
    (7, &[13, 2, 1, 2, 3, 4, 5, 6, 7, 8, 9, 10]),
    (4, &[8, 1, 0xCA, 0, 12, 0x42, 2, 0x23, 0x45, 0xFF, 0x41, 0, 0x12, 0x3F, 0]),
    (4, &[8, 1, 0xCA, 0, 8, 0x80, 1, 0x12, 0x3F, 0xFF, 0]),
    (4, &[8, 1, 0xCC, 0, 10, 0xC2, 5, 0x41, 0, 6, 0xFF, 0x80, 0]),
    (4, &[8, 1, 0xCC, 0, 5, 0x81, 5, 0]),
    (4, &[8, 1, 0xD0, 0, 10, 0xC0, 2, 0x20, 0, 0x7F, 0x41, 0xFF, 0]),
    (4, &[8, 1, 0xD1, 0, 10, 0x60, 0, 0x10, 0, 1, 0x41, 0x31, 0]),
    (4, &[8, 1, 0xD1, 0, 8, 0x80, 15, 0, 0, 0, 0]),
    (4, &[8, 2, 0xD2, 0, 8, 0x40, 15, 0xFF, 0xFF, 0xFF, 0, 0xCE, 0, 6, 0xC0, 1, 15, 0x1F]),
    // One number with both IDtypes: added; added and one of the two deleted.
    (7, &[8, 2, 0xCA, 0, 7, 0x42, 1, 0x1F, 0, 0, 0xCA, 0, 9, 0x40, 1, 0x1F, 0, 0x41, 0, 0]),
    (
        4,
        &[
            8, 3, 0xCA, 0, 6, 0x42, 1, 0x1F, 0, 0xCA, 0, 6, 0x40, 1, 0x1F, 0, 0xCA, 0, 6, 0x82, 1,
            0x1F, 0,
        ],
    ),
    // Numbers that start alike, and in another order than by key: replaced, one of the other IDtype added, and one deleted.
    (
        4,
        &[
            8, 3, 0xCA, 0, 13, 0xC0, 3, 0x23, 0x45, 0xFF, 0, 0x23, 0xFF, 0, 0x3F, 0, 0xCA, 0, 8,
            0x42, 1, 0x23, 0x45, 0xFF, 0, 0xCA, 0, 7, 0x80, 1, 0x23, 0xFF, 0,
        ],
    ),
    // Contacts and line slots.
    (7, &[8, 1, 0xC8, 0, 12, 0x60, 0, 1, 0x10, 0, 1, 0, 0x41, 0, 0]),
    (7, &[8, 1, 0xC8, 0, 15, 0xDF, 0xC0, 2, 0x10, 0, 1, 0, 0, 0xFF, 0xFF, 0xFF, 0, 0]),
    (7, &[8, 1, 0xC8, 0, 10, 0xA0, 0, 1, 0x10, 0, 1, 0, 0]),
    (7, &[8, 1, 0xC8, 0, 5, 0xD0, 0, 0]),
    (7, &[8, 1, 0xC9, 0, 9, 0x40, 1, 0x10, 0, 1, 0, 0]),
    (7, &[8, 2, 0xC9, 0, 9, 0x7C, 1, 0x10, 0, 1, 0, 0, 0xC9, 0, 9, 0x80, 1, 0x10, 0, 1, 0, 0]),
    (7, &[8, 1, 0xC9, 0, 4, 0xC0, 0]),
    (7, &[8, 1, 0xD3, 0, 9, 0x42, 3, 0x23, 0x45, 0xFF, 0, 0]),
    (7, &[8, 1, 0xD3, 0, 7, 0x80, 15, 0x0F, 0, 0]),
    (4, &[8, 1, 0xC8, 0, 10, 0x50, 0, 1, 0x10, 0, 1, 0x41, 0]),
    (4, &[8, 1, 0xC9, 0, 13, 0x7C, 2, 0x10, 0, 1, 0, 0x10, 0, 1, 0x41, 0]),
    (4, &[8, 2, 0xD3, 0, 8, 0x7E, 5, 0x12, 0x3F, 0x41, 0, 0xD3, 0, 6, 0x80, 5, 0x0F, 0]),
];

/// The base, its every one-byte change, every cut with a true length, and every extension by one.
pub fn sweep((coding, base): (u8, &[u8])) -> Vec<Vec<u8>> {
    let good = carried(coding, base, true);
    let mut messages = vec![good.clone()];
    for place in 0..good.len() {
        for value in 0..=255 {
            let mut changed = good.clone();
            changed[place] = value;
            messages.push(changed);
        }
        // Once more, so that later changes meet the state the base leaves.
        messages.push(good.clone());
    }
    messages.extend((1..base.len()).map(|length| carried(coding, &base[..length], true)));
    messages.extend((0..=255).map(|value| carried(coding, &[base, &[value]].concat(), true)));
    messages
}
