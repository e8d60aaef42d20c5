//! The plain engine by hand: starting, taking, the area's end, which bytes are an area, and rows; by the archive and by the reference.

use otap::{Desk, Outcome, Refusal, Table, AREA_SIZE, DESK_SCRATCH_ROOM, REPLY_ROOM};
use otap_reference::reference::commit::Answer;
use otap_reference::reference::message::{query, request_as, Hash};
use otap_reference::reference::settings::Operation::{Add, Replace};
use otap_reference::reference::texts::Coding;
use otap_tests::desk::{of_size, packed, row, row_into, started, take_into, told, used};
use otap_tests::pair::patterned;
use otap_tests::{bytes, channels, hex_request, raw, request};

const HOME: &str = "CD 00 05 07 E4 C0";
const NP_807: &str = "CD 00 05 07 E4 E0";
/// Asks for a restart and a reply, and leaves a hash.
const LAST: &str = "FF 00 07 C1 12 34 56 78";
const HASH: Hash = Hash::Crc([0x12, 0x34, 0x56, 0x78]);

/// An area after these requests under 0111, which are all taken.
fn after(requests: &[&[&str]]) -> Vec<u8> {
    let mut area = started();
    for settings in requests {
        assert_eq!(told(&hex_request(settings), &mut area), (0, 0), "{settings:?}");
    }
    area
}

/// A request under 0100.
fn eight_bit(settings: &[&str]) -> Vec<u8> {
    let settings: Vec<_> = settings.iter().map(|setting| bytes(setting)).collect();
    request_as(Coding::Eight, &settings)
}

/// An area with just so many bytes left behind the used ones.
fn with_left(left: usize) -> Vec<u8> {
    let mut area = started();
    for size in [3_000; 10].into_iter().chain([AREA_SIZE - 4 - 10 * 3_002 - 2 - left]) {
        assert_eq!(told(&of_size(size), &mut area), (0, 0));
    }
    assert_eq!(used(&area), AREA_SIZE - 4 - left);
    area
}

/// An area with these messages, each behind its length, and a true used length.
fn of(messages: &[Vec<u8>]) -> Vec<u8> {
    let record = |message: &Vec<u8>| [&(message.len() as u16).to_be_bytes(), &message[..]].concat();
    let records: Vec<u8> = messages.iter().flat_map(record).collect();
    let mut area = (records.len() as u32).to_be_bytes().to_vec();
    area.extend(records);
    area.resize(AREA_SIZE, 0);
    area
}

/// That every call refuses these bytes with 11, whatever it is asked, and the face too.
fn is_none(area: &[u8]) {
    for message in [hex_request(&[HOME]), query(&HASH), Vec::new()] {
        assert_eq!(told(&message, &mut area.to_vec()), (11, 0));
    }
    assert_eq!(row(1, 0, area), Err(11));
    assert_eq!(row(9, 0, area), Err(11));
    assert_eq!(Desk::open(&mut area.to_vec()).err(), Some(Refusal::NotAStore));
}

fn is_one(area: &[u8]) {
    assert_eq!(told(&query(&Hash::Nothing), &mut area.to_vec()), (5, 0));
    assert!(Desk::open(&mut area.to_vec()).is_ok());
}

#[test]
fn starting() {
    for fill in [0, 1, 0xFF] {
        let mut area = vec![fill; AREA_SIZE];
        assert_eq!(raw::plain_start(&mut area), 0);
        assert_eq!(area, started());
    }
    for size in [0, 1, 4, 24_576, AREA_SIZE - 1, AREA_SIZE + 1, 49_152, 65_536] {
        let mut area = patterned(size);
        assert_eq!(raw::plain_start(&mut area), 11);
        assert_eq!(Desk::start(&mut area).err(), Some(Refusal::NotAStore));
        assert!(area == patterned(size), "refused, so the bytes stay");
        is_none(&vec![0; size]);
    }
}

/// The whole answer as C has it, with each bit that it may have.
#[test]
fn bits() {
    let mut area = started();
    let took = |area: &mut Vec<u8>, message: &[u8]| packed(&take_into(message, area, REPLY_ROOM));
    assert_eq!(took(&mut area, &hex_request(&[HOME])), 10 << 24);
    assert_eq!(took(&mut area, &hex_request(&[HOME, LAST])), 14 << 24 | 1 << 17 | 1 << 16);
    assert_eq!(took(&mut area, &query(&HASH)), 14 << 24 | 1 << 16);
    assert_eq!(took(&mut area, &query(&Hash::Nothing)), 14 << 24 | 1 << 16 | 5);
    assert_eq!(took(&mut area, &hex_request(&[HOME, NP_807])), 10 << 24 | 1 << 16 | 2 << 8 | 4);
    let stamped = "FF 00 0D 42 01 02 03 04 05 06 07 08 09 0A";
    assert_eq!(took(&mut area, &hex_request(&[stamped])), 20 << 24 | 1 << 16);
    assert_eq!(took(&mut area, &[]), 12);
    assert_eq!(took(&mut with_left(0), &hex_request(&[LAST])), 18);
}

/// What is taken is kept as it came, with a length of 0 and with reserved bits; what is refused is not, nor is a query.
#[test]
fn what_is_kept() {
    let first = bytes("02 02 00 00 08 F7 08 01 CE 00 06 7C 01 0F 1F");
    let second = hex_request(&[HOME, LAST]);
    let mut area = started();
    assert_eq!(told(&first, &mut area), (0, 0));
    assert_eq!(area, of(std::slice::from_ref(&first)));
    assert_eq!(told(&second, &mut area), (0, 0));
    let both = of(&[first, second]);
    assert_eq!(area, both);
    for (message, wanted) in [
        (query(&HASH), (0, 0)),
        (query(&Hash::Nothing), (5, 0)),
        (hex_request(&["CA 00 09 40 01 1F 00 41 00 00", NP_807]), (4, 2)),
        (hex_request(&[HOME, "C7 00"]), (3, 2)),
        (request(&[channels(Replace, &[241; 65])]), (2, 1)),
        (bytes("02 02 00 00 08 07 10"), (1, 0)),
        (bytes("02 02 00 00 08 07 09"), (14, 0)),
        (bytes("02 03 00 00 08 07 08"), (13, 0)),
        (vec![2; 6], (12, 0)),
        (vec![2; 4_097], (12, 0)),
    ] {
        assert_eq!(told(&message, &mut area), wanted, "{message:02X?}");
        assert_eq!(area, both);
    }
}

/// 10, 11, 12 and on; and 18 last.
#[test]
fn the_order() {
    let (mut area, mut none) = (started(), vec![1; AREA_SIZE]);
    let number = |message: &[u8], area: &mut Vec<u8>, room| take_into(message, area, room).number;
    for room in [0, 1, REPLY_ROOM - 1] {
        assert_eq!(number(&[], &mut none, room), 10);
        assert_eq!(number(&hex_request(&[HOME]), &mut area, room), 10);
    }
    assert_eq!(number(&[], &mut none, REPLY_ROOM), 11);
    let mut full = with_left(20);
    let mut good = of_size(50);
    assert_eq!(number(&good, &mut full, REPLY_ROOM - 1), 10);
    assert_eq!(number(&good, &mut full, REPLY_ROOM), 18);
    for (place, byte, wanted) in [(6, 0x10, 1), (6, 0x09, 14), (4, 9, 13)] {
        good[place] = byte;
        assert_eq!(number(&good, &mut full, REPLY_ROOM), wanted);
    }
    assert_eq!(told(&hex_request(&[HOME, HOME, HOME, "C7 00"]), &mut full), (3, 4));
    assert_eq!(told(&hex_request(&[HOME, HOME, NP_807]), &mut full), (4, 3));
    assert_eq!(told(&request(&[channels(Replace, &[241; 65])]), &mut full), (2, 1));
    assert_eq!(told(&query(&HASH), &mut full), (5, 0));
    let refused = Desk::lent(&mut full).take(&of_size(50), &mut [0; REPLY_ROOM]).outcome;
    assert_eq!((refused, refused.number()), (Outcome::Refused(Refusal::AreaFull), 18));
    assert_eq!(Refusal::AreaFull.to_string(), "18: the request passes the area's end");
}

/// The last byte may be used, and no byte more; what is shorter may follow.
#[test]
fn the_end() {
    let mut area = with_left(100);
    for (size, wanted) in [(99, 18), (3_000, 18), (50, 0), (47, 18), (24, 0), (20, 0), (20, 18)] {
        assert_eq!(told(&of_size(size), &mut area), (wanted, 0), "{size}");
    }
    assert_eq!(used(&area), AREA_SIZE - 4);
    is_one(&area);
    let mut area = with_left(100);
    assert_eq!(told(&of_size(98), &mut area), (0, 0));
    assert_eq!(used(&area), AREA_SIZE - 4);
    // One byte, or none, has no room for a length.
    for left in [0, 1, 2, 3] {
        assert_eq!(told(&of_size(20), &mut with_left(left)), (18, 0));
    }
}

/// Every byte of a small area changed, by a bit and to some others, and a byte behind it: 11 or not as the reference has it.
#[test]
fn changed_bytes() {
    let area = after(&[&["CA 00 0B 42 01 23 45 FF 00 41 00 00"], &[HOME, LAST]]);
    let end = 4 + used(&area);
    let mut met = [0, 0];
    for place in (0..end + 3).chain([AREA_SIZE - 1]) {
        let others = (0..8).map(|bit| area[place] ^ 1 << bit).chain([0, 0xFF]);
        for byte in others {
            let mut changed = area.clone();
            changed[place] = byte;
            let number = told(&query(&HASH), &mut changed).0;
            let shown = row(1, 0, &changed);
            assert_eq!(shown == Err(11), number == 11);
            met[usize::from(number == 11)] += 1;
        }
    }
    println!("{met:?}");
    assert!(met[0] > 100 && met[1] > 300);
}

#[test]
fn what_is_no_area() {
    let area = after(&[&["CE 00 06 40 01 0F 1F"], &[HOME]]);
    for size in [0, 3, 4, 5, AREA_SIZE - 1] {
        is_none(&area[..size]);
    }
    is_none(&[&area[..], &[0]].concat());
    let right = used(&area);
    for length in [0, 1, right - 1, right + 1, right + 2, AREA_SIZE - 4, AREA_SIZE - 3, AREA_SIZE] {
        let mut changed = area.clone();
        changed[..4].copy_from_slice(&(length as u32).to_be_bytes());
        is_none(&changed);
    }
    is_none(&vec![0xFF; AREA_SIZE]);
    // What is no request is not kept, a query that matches neither.
    let kept = hex_request(&[LAST]);
    for other in [Vec::new(), vec![2; 6], query(&Hash::Nothing), query(&HASH)] {
        is_none(&of(&[kept.clone(), other]));
    }
    is_one(&of(&[kept]));
    is_one(&of(&[]));
}

/// Each request is taken in its turn: two of 33 channels are too many, and a replace between them makes room.
#[test]
fn in_their_turn() {
    let (many, none) = (channels(Add, &[241; 33]), channels(Replace, &[]));
    let [many, none] = [many, none].map(|setting| request(&[setting]));
    is_one(&of(std::slice::from_ref(&many)));
    is_none(&of(&[many.clone(), many.clone()]));
    is_one(&of(&[many.clone(), none.clone(), many.clone()]));
    is_none(&of(&[many.clone(), many, none]));
}

/// By table: a setting under 0111 with the text AB, the same under 0100, one without a text, its place, and the number that is shown then.
const ROWS: [(&str, &str, &str, Table, u32, &str); 8] = [
    (
        "CA 00 0D 42 01 23 45 FF 00 41 00 42 00 00",
        "CA 00 0A 42 01 23 45 FF 41 42 00",
        "CA 00 09 42 01 23 45 FF 00 00",
        Table::Lines,
        0,
        "2345",
    ),
    ("CC 00 0A 41 05 00 41 00 42 00 00", "CC 00 07 41 05 41 42 00", "", Table::QuickTexts, 5, ""),
    (
        "D0 00 0B 40 01 21 00 41 00 42 00 00",
        "D0 00 08 40 01 21 41 42 00",
        "D0 00 07 40 01 21 00 00",
        Table::StatusTexts,
        33,
        "",
    ),
    (
        "D1 00 0D 60 0F 10 00 01 00 41 00 42 00 00",
        "D1 00 0A 60 0F 10 00 01 41 42 00",
        "D1 00 09 60 0F 10 00 01 00 00",
        Table::Groups,
        15,
        "32820900",
    ),
    (
        "D2 00 0D 40 0F 10 00 01 00 41 00 42 00 00",
        "D2 00 0A 40 0F 10 00 01 41 42 00",
        "D2 00 09 40 0F FF 7D C8 00 00",
        Table::Individuals,
        15,
        "80689549",
    ),
    (
        "C8 00 0E 60 00 01 10 00 01 00 41 00 42 00 00",
        "C8 00 0B 60 00 01 10 00 01 41 42 00",
        "C8 00 0A 60 00 01 FF 7D C8 00 00",
        Table::GroupContacts,
        0,
        "FF7DC8",
    ),
    (
        "C9 00 0D 40 01 10 00 01 00 41 00 42 00 00",
        "C9 00 0A 40 01 10 00 01 41 42 00",
        "C9 00 09 40 01 10 00 01 00 00",
        Table::IndividualContacts,
        0,
        "32820200",
    ),
    (
        "D3 00 0B 40 0F 7F 00 41 00 42 00 00",
        "D3 00 08 40 0F 7F 41 42 00",
        "D3 00 07 40 0F 0F 00 00",
        Table::LineSlots,
        15,
        "0",
    ),
];

fn units(text: &str) -> Vec<u8> {
    text.encode_utf16().flat_map(u16::to_be_bytes).collect()
}

#[test]
fn rows_of_each_table() {
    for (wide, narrow, bare, table, place, number) in ROWS {
        let named = |area: &[u8]| row(table.number(), place, area);
        assert_eq!(named(&started()), Err(17), "{table:?}");
        assert_eq!(named(&after(&[&[HOME], &[HOME, wide, LAST]])), Ok(units("AB")), "{table:?}");
        let mut area = started();
        assert_eq!(told(&eight_bit(&[narrow]), &mut area), (0, 0));
        assert_eq!(named(&area), Ok(units("AB")), "{table:?}");
        if !bare.is_empty() {
            assert_eq!(named(&after(&[&[bare]])), Ok(units(number)), "{table:?}");
        }
        // No other place, no other table.
        for other in [place + 1, place + 0x100, place + 0x1_0000, u32::MAX] {
            assert_eq!(row(table.number(), other, &area), Err(17));
        }
        for other in [0, 9, table.number() + 0x100, u32::MAX] {
            assert_eq!(row(other, place, &area), Err(17));
        }
    }
}

/// An empty status text is an empty part of the scratch, by the C function the value 1; and the longest text has 46 bytes.
#[test]
fn the_shortest_and_the_longest() {
    let mut area = after(&[&["D0 00 07 40 01 21 00 00"]]);
    let mut scratch = [0xEE; DESK_SCRATCH_ROOM];
    assert_eq!(raw::plain_row_part(3, 33, &area, &mut scratch), 1);
    assert_eq!(scratch, [0xEE; DESK_SCRATCH_ROOM]);
    let longest = format!("CC 00 1C 41 06 {}00", "7A ".repeat(23));
    assert_eq!(told(&eight_bit(&[&longest]), &mut area), (0, 0));
    assert_eq!(raw::plain_row_part(2, 6, &area, &mut scratch), 1 | 46 << 32);
    assert_eq!(scratch[..46], units(&"z".repeat(23)));
    assert_eq!(scratch[46..], [0xEE; DESK_SCRATCH_ROOM - 46]);
    let digits = "CA 00 10 42 01 12 34 56 78 90 12 34 56 78 FF 00 00";
    assert_eq!(row(1, 0, &after(&[&[digits]])), Ok(units("123456789012345678")));
}

/// 15, 11, 17.
#[test]
fn the_order_of_rows() {
    let (area, none) = (after(&[&[ROWS[0].0]]), vec![1; AREA_SIZE]);
    for room in (0..DESK_SCRATCH_ROOM).chain([DESK_SCRATCH_ROOM, 65, 200]) {
        let short = room < DESK_SCRATCH_ROOM;
        let wanted = |number: u8| if short { 15 } else { number };
        assert_eq!(row_into(1, 0, &none, room), Err(wanted(11)));
        assert_eq!(row_into(9, 0, &none, room), Err(wanted(11)));
        assert_eq!(row_into(9, 0, &area, room), Err(wanted(17)));
        assert_eq!(row_into(1, 0, &area, room).err(), short.then_some(15));
    }
}

/// Background groups have no row and keep their position; lines move up, and one that is added again comes last; quick texts stay.
#[test]
fn what_comes_and_goes() {
    let groups =
        ["C8 00 0C 50 00 01 10 00 01 00 41 00 00", "C8 00 0C 70 00 01 10 00 02 00 42 00 00"];
    let area = after(&[&groups, &["D1 00 0B 50 00 10 00 01 00 41 00 00"]]);
    assert_eq!((row(6, 0, &area), row(6, 1, &area)), (Err(17), Ok(units("B"))));
    assert_eq!(row(4, 0, &area), Err(17));
    let lines = "CA 00 0D 40 03 1F 00 00 2F 00 00 3F 00 00";
    let (delete, add) = ("CA 00 07 80 01 1F 00 00", "CA 00 09 40 01 1F 00 41 00 00");
    let shown = |area: &[u8]| [0, 1, 2].map(|place| row(1, place, area).unwrap_or_default());
    assert_eq!(shown(&after(&[&[lines], &[add]])), ["A", "2", "3"].map(units));
    assert_eq!(shown(&after(&[&[lines], &[delete]])), ["2", "3", ""].map(units));
    assert_eq!(shown(&after(&[&[lines, delete], &[add]])), ["2", "3", "A"].map(units));
    let (first, second) = ("CC 00 08 41 05 00 41 00 00", "CC 00 08 41 05 00 42 00 00");
    let gone = "CC 00 06 81 05 00 00";
    assert_eq!(row(2, 5, &after(&[&[first], &[second]])), Ok(units("A")));
    assert_eq!(row(2, 5, &after(&[&[first, gone], &[second]])), Ok(units("B")));
    assert_eq!(row(2, 5, &after(&[&[first], &[gone]])), Err(17));
}

/// The face says no more than the number: an answer that is refused has no reply.
#[test]
fn a_refusal_of_the_face() {
    let mut area = vec![1; AREA_SIZE];
    let refused = take_into(&hex_request(&[HOME]), &mut area, REPLY_ROOM);
    assert_eq!(refused, Answer { number: 11, ..Answer::default() });
    let mut scratch = [0; DESK_SCRATCH_ROOM];
    let desk = Desk::lent(&mut area);
    assert_eq!(desk.row(Table::Lines, 0, &mut scratch).err(), Some(Refusal::NotAStore));
    assert_eq!(desk.row(Table::Lines, 0, &mut scratch[1..]).err(), Some(Refusal::BufferShort));
}
