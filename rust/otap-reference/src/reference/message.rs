//! The carrier and the messages in it: request, result query and reply; `queries` and `reports` have the other two.

use super::bits::{BitReader, BitWriter};
use super::limits::Limits;
use super::numbers::{MESSAGE_LENGTH, WRONG_CARRIER, WRONG_MESSAGE_TYPE, WRONG_VERSION};
use super::texts::Coding;

pub const START: [u8; 2] = [0x02, 0x02];
pub const MFID: u8 = 0x08;
pub const VERSION: u8 = 1;
pub const REQUEST: u8 = 0;
pub const REPLY: u8 = 1;
/// A query of types (document 02, A8), and the report that answers it.
pub const TYPE_QUERY: u8 = 2;
pub const REPORT: u8 = 3;
pub const QUERY: u8 = 5;
pub const CODING_BINARY: u8 = 0;
pub const SHORTEST: usize = 7;
/// The bytes of a request before its first setting.
pub const REQUEST_HEAD: usize = 8;

/// A hash code and its value; code 0 stands for none.
#[derive(Clone, Debug, Default, PartialEq, Eq)]
pub enum Hash {
    #[default]
    Nothing,
    Crc([u8; 4]),
    Stamped([u8; 10]),
}

impl Hash {
    pub fn code(&self) -> u8 {
        match self {
            Hash::Nothing => 0,
            Hash::Crc(_) => 1,
            Hash::Stamped(_) => 2,
        }
    }

    pub fn value(&self) -> &[u8] {
        match self {
            Hash::Nothing => &[],
            Hash::Crc(value) => value,
            Hash::Stamped(value) => value,
        }
    }

    /// Reads 6 bits of code and the value the code calls for.
    pub fn read(bits: &mut BitReader) -> Option<Hash> {
        let code = bits.bits(6)?;
        Hash::read_value(code, bits)
    }

    /// Reads the value that a code calls for.
    pub fn read_value(code: u32, bits: &mut BitReader) -> Option<Hash> {
        match code {
            0 => Some(Hash::Nothing),
            1 => read_bytes(bits).map(Hash::Crc),
            2 => read_bytes(bits).map(Hash::Stamped),
            _ => None,
        }
    }

    pub fn write(&self, bits: &mut BitWriter) {
        bits.bits(u32::from(self.code()), 6);
        bits.bytes(self.value());
    }
}

fn read_bytes<const N: usize>(bits: &mut BitReader) -> Option<[u8; N]> {
    let mut value = [0; N];
    for byte in &mut value {
        *byte = bits.byte()?;
    }
    Some(value)
}

/// A message whose carrier is right, not yet judged further.
pub struct Opened<'a> {
    pub coding: u8,
    pub version: u8,
    pub kind: u8,
    /// What follows the first data byte.
    pub body: &'a [u8],
}

/// Opens a message of allowed length; nothing when a carrier field or the length is wrong.
pub fn open(message: &[u8]) -> Option<Opened<'_>> {
    let stated = usize::from(u16::from_be_bytes([message[2], message[3]]));
    let length_fits = stated == 0 || stated == message.len() - 4;
    if message[..2] != START || message[4] != MFID || !length_fits {
        return None;
    }
    Some(Opened {
        coding: message[5] & 0x0F,
        version: message[6] >> 3,
        kind: message[6] & 0x07,
        body: &message[7..],
    })
}

/// Opens a message of one of these MsgTypes, of a size that the set takes; or 12, 13 or 14, in this order.
pub fn admitted<'a>(message: &'a [u8], limits: Limits, kinds: &[u8]) -> Result<Opened<'a>, u8> {
    if !(SHORTEST..=limits.message).contains(&message.len()) {
        return Err(MESSAGE_LENGTH);
    }
    let opened = open(message).ok_or(WRONG_CARRIER)?;
    if kinds.contains(&opened.kind) {
        Ok(opened)
    } else {
        Err(WRONG_MESSAGE_TYPE)
    }
}

/// As `admitted`, of one MsgType and version 1; another version is 1, last.
pub fn of_kind(message: &[u8], limits: Limits, kind: u8) -> Result<Opened<'_>, u8> {
    let opened = admitted(message, limits, &[kind])?;
    if opened.version == VERSION {
        Ok(opened)
    } else {
        Err(WRONG_VERSION)
    }
}

/// The hash a result query asks for; nothing when the query is malformed.
pub fn asked(body: &[u8]) -> Option<Hash> {
    let mut bits = BitReader::new(body);
    bits.bits(2)?;
    let hash = Hash::read(&mut bits)?;
    bits.at_end().then_some(hash)
}

/// A request under 0111, as every export is.
pub fn request(settings: &[Vec<u8>]) -> Vec<u8> {
    request_as(Coding::Unicode, settings)
}

pub fn request_as(coding: Coding, settings: &[Vec<u8>]) -> Vec<u8> {
    let mut data = vec![first_byte(REQUEST), settings.len() as u8];
    settings.iter().for_each(|setting| data.extend(setting));
    carry(coding.number(), &data)
}

pub fn query(hash: &Hash) -> Vec<u8> {
    let mut bits = BitWriter::new();
    bits.bytes(&[first_byte(QUERY)]);
    bits.bits(0, 2);
    hash.write(&mut bits);
    carry(CODING_BINARY, &bits.finish())
}

pub fn reply(number: u8, failed: u8, hash: &Hash) -> Vec<u8> {
    let mut bits = BitWriter::new();
    bits.bytes(&[first_byte(REPLY), number, failed]);
    bits.bits(0, 2);
    hash.write(&mut bits);
    carry(CODING_BINARY, &bits.finish())
}

pub fn first_byte(kind: u8) -> u8 {
    VERSION << 3 | kind
}

/// A message with its true length and reserved bits 0.
pub(super) fn carry(coding: u8, data: &[u8]) -> Vec<u8> {
    let length = (data.len() + 2) as u16;
    let mut message = START.to_vec();
    message.extend(length.to_be_bytes());
    message.extend([MFID, coding]);
    message.extend(data);
    message
}
