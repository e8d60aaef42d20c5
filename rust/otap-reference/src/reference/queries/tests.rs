//! Queries, byte by byte.

use super::*;
use crate::reference::by_hand::{bytes, number};
use crate::reference::limits::{HANDHELD, VEHICLE};
use crate::reference::tables::Set;

/// By a hand-held.
fn types(query: &[u8]) -> Result<&[u8], u8> {
    super::types(query, HANDHELD)
}

/// The types or the number of a query whose data bytes these are, with its length stated and not.
fn read(data: &str) -> Result<Vec<u8>, u8> {
    let data = bytes(data);
    let length = (data.len() + 2) as u8;
    let [stated, unstated] = [length, 0].map(|length| {
        let message = [vec![2, 2, 0, length, 8, 0], data.clone()].concat();
        types(&message).map(<[u8]>::to_vec)
    });
    assert_eq!(stated, unstated);
    stated
}

#[test]
fn good_queries() {
    assert_eq!(read("0A 01 CE"), Ok(vec![0xCE]));
    assert_eq!(read("0A 03 CD 00 CF"), Ok(vec![0xCD, 0x00, 0xCF]));
    assert_eq!(read("0A 02 CE CE"), Ok(vec![0xCE, 0xCE]));
    let most = vec![0xD0; 255];
    let query = query(&most);
    assert_eq!((query.len(), types(&query)), (263, Ok(&most[..])));
    assert_eq!(query[..8], bytes("02 02 01 03 08 00 0A FF"));
}

/// A type is any byte: what is unknown is not the query's fault.
#[test]
fn every_byte_may_be_asked() {
    for byte in 0..=255 {
        assert_eq!(types(&query(&[byte])), Ok(&[byte][..]));
    }
}

#[test]
fn wrong_counts() {
    for data in ["0A", "0A 00", "0A 00 CE", "0A 01", "0A 01 CE CE", "0A 02 CE", "0A FF CE"] {
        assert_eq!(read(data), Err(4), "{data}");
    }
}

/// 256 types, of which a byte counts none.
#[test]
fn too_many_types() {
    let many = [vec![2, 2, 0, 0, 8, 0, 0x0A, 0], vec![0xCE; 256]].concat();
    assert_eq!(types(&many), Err(4));
    let long = [vec![2, 2, 0, 0, 8, 0, 0x0A, 255], vec![0xCE; 4_096 - 8]].concat();
    assert_eq!(types(&long), Err(4));
    let longer = [long, vec![0xCE]].concat();
    assert_eq!(types(&longer), Err(12));
    assert_eq!(super::types(&longer, VEHICLE), Err(4));
    let of_size = |size: usize| {
        let mut query = longer.clone();
        query.resize(size, 0xCE);
        super::types(&query, VEHICLE).err()
    };
    assert_eq!([8_192, 8_193].map(of_size), [Some(4), Some(12)]);
}

/// Every coding type and all reserved bits.
#[test]
fn any_coding_type() {
    for coding in 0..=255 {
        let message = [vec![2, 2, 0, 5, 8, coding], bytes("0A 01 CE")].concat();
        assert_eq!(types(&message), Ok(&[0xCE][..]));
    }
}

/// MsgType comes before the version, and the version before the count.
#[test]
fn other_messages() {
    let of = |first: u8, rest: &[u8]| {
        let message = [&[2, 2, 0, 0, 8, 0, first], rest].concat();
        types(&message).err()
    };
    for first in 0..=255_u8 {
        let number = match (first & 7, first >> 3) {
            (2, 1) => None,
            (2, _) => Some(1),
            _ => Some(14),
        };
        assert_eq!(of(first, &[1, 0xCE]), number, "{first:02X}");
        assert_eq!(of(first, &[]), number.or(Some(4)), "{first:02X}");
    }
}

#[test]
fn wrong_carriers() {
    let good = bytes("02 02 00 05 08 00 0A 01 CE");
    for (place, byte) in [(0, 1), (1, 3), (4, 9), (3, 6), (3, 4), (2, 1)] {
        let mut message = good.clone();
        message[place] = byte;
        // Also where MsgType and version are wrong.
        assert_eq!(types(&message), Err(13), "{place}");
        message[6] = 0xFF;
        assert_eq!(types(&message), Err(13), "{place}");
    }
    assert_eq!(types(&good[..6]), Err(12));
    assert_eq!(types(&[]), Err(12));
}

/// Taking refuses queries and reports as before, and leaves the set.
#[test]
fn taking_refuses_both() {
    let mut set = Set::fresh(HANDHELD);
    for message in ["02 02 00 05 08 07 0A 01 CE", "02 02 00 06 08 07 0B 01 01 00"] {
        assert_eq!(number(&mut set, &bytes(message)), (14, 0));
    }
    assert_eq!(set, Set::fresh(HANDHELD));
}
