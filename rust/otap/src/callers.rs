//! Who is calling: the row of the line contact that has a caller's number.

use crate::answer::{bit, byte, half, Refusal};

/// The IDtype of a line of the telephone network.
pub const PSTN: u32 = 0;
/// The IDtype of a line of a private exchange.
pub const PABX: u32 = 1;
/// A line's number has at most so many digits.
pub const MOST_DIGITS: usize = 18;

/// Bits 0 to 7 are the number, 8 whether a row has it, 16 to 31 the row. Here 20 is not that of a conversion.
pub(crate) fn unpack(packed: u64) -> Result<Option<u32>, Refusal> {
    match byte(packed, 0) {
        0 => Ok(bit(packed, 8).then_some(half(packed, 16) as u32)),
        20 => Err(Refusal::BadNumber),
        number => Err(Refusal::from_number(number)),
    }
}
