//! What a query is (document 02, A8): a count of types and as many types asked, under any coding type.

use super::limits::Limits;
use super::message::{carry, first_byte, of_kind, CODING_BINARY, TYPE_QUERY};
use super::numbers::BAD_FIELD;

#[cfg(test)]
mod tests;

/// The types that a query asks for, in its order; or 12, 13, 14, 1 or 4.
pub fn types(query: &[u8], limits: Limits) -> Result<&[u8], u8> {
    match of_kind(query, limits, TYPE_QUERY)?.body {
        [count, types @ ..] if *count != 0 && usize::from(*count) == types.len() => Ok(types),
        _ => Err(BAD_FIELD),
    }
}

/// A query of 1 to 255 types, as the system sends one.
pub fn query(types: &[u8]) -> Vec<u8> {
    carry(CODING_BINARY, &query_data(types))
}

/// Its data bytes.
pub fn query_data(types: &[u8]) -> Vec<u8> {
    let count = u8::try_from(types.len()).expect("a query asks for at most 255 types");
    [&[first_byte(TYPE_QUERY), count], types].concat()
}
