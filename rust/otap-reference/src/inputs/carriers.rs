//! Messages whose carrier, MsgType or version is wrong.

use super::random::Random;

/// Mostly wrong in one of these; at times what is put there is what stood there.
pub fn damage(random: &mut Random, message: &mut [u8]) {
    match random.below(8) {
        0 => message[0] = random.pick(&[0, 1, 3, 0x82, 0x20]),
        1 => message[1] = random.pick(&[0, 1, 3, 0x82, 0x20]),
        2 => message[4] = random.pick(&[0, 7, 9, 0x88, 0x80]),
        3 => misstate(random, message),
        4 | 5 => message[6] = message[6] & 0xF8 | random.bits(3) as u8,
        _ => message[6] = message[6] & 0x07 | (random.bits(5) as u8) << 3,
    }
}

/// A stated length that is a little off, byte-swapped, or anything.
pub fn misstate(random: &mut Random, message: &mut [u8]) {
    let truth = (message.len() - 4) as u16;
    let stated = match random.below(6) {
        0 => truth + 1,
        1 => truth - 1,
        2 => truth + 4,
        3 => truth.swap_bytes(),
        4 => truth - 2,
        _ => random.bits(16) as u16,
    };
    message[2..4].copy_from_slice(&stated.to_be_bytes());
}

/// One bit of a start byte or of the MFID.
pub fn wrong_byte(random: &mut Random, message: &mut [u8]) {
    message[random.pick(&[0, 1, 4])] ^= 1 << random.below(8);
}

/// Neither the true length nor 0.
pub fn wrong_length(random: &mut Random, message: &mut [u8]) {
    let truth = (message.len() - 4) as u16;
    // What is put there may be true by chance, or say that it isn't stated.
    while [0, truth].contains(&u16::from_be_bytes([message[2], message[3]])) {
        misstate(random, message);
    }
}

pub fn other_type(random: &mut Random, message: &mut [u8]) {
    message[6] ^= random.within(1..=7) as u8;
}

pub fn other_version(random: &mut Random, message: &mut [u8]) {
    message[6] ^= (random.within(1..=31) as u8) << 3;
}
