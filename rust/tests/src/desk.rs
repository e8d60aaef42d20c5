//! A desk emulator behind its face, the plain engine of the reference, and a hand-held's store, which get the same calls and must stay alike.

use crate::pair::{number_of, patterned, said};
use crate::raw;
use crate::request;
use otap::{Desk, Slice, Store, Table, AREA_SIZE, DESK_SCRATCH_ROOM, REPLY_ROOM, SCRATCH_ROOM};
use otap_reference::reference::commit::Answer;
use otap_reference::reference::plain;
use otap_reference::reference::settings::{Operation, Setting, TextEntry};

/// How many bytes an area says are used.
pub fn used(area: &[u8]) -> usize {
    u32::from_be_bytes([area[0], area[1], area[2], area[3]]) as usize
}

/// The bits of the C answer: number 0 to 7, failed ID 8 to 15, send 16, reboot 17, reply length 24 to 31, all others 0.
pub fn packed(answer: &Answer) -> u64 {
    let flags = u64::from(answer.send) << 16 | u64::from(answer.reboot) << 17;
    u64::from(answer.number) | u64::from(answer.failed) << 8 | flags | (answer.length as u64) << 24
}

/// Takes a message, by the face and by the reference: the same answer, reply buffer and area.
pub fn take_into(message: &[u8], area: &mut Vec<u8>, room: usize) -> Answer {
    let before = area.clone();
    let (mut reply, mut expected) = (patterned(room), patterned(room));
    let answer = said(&Desk::lent(area).take(message, &mut reply));
    let mut wanted = before.clone();
    assert_eq!(answer, plain::plain_take(message, &mut wanted, &mut expected), "{message:02X?}");
    assert!(reply == expected, "the whole reply buffer after {message:02X?}");
    assert!(*area == wanted, "the area after {message:02X?}");
    // From the same bytes again, as C has it.
    let (mut again, mut other) = (before, patterned(room));
    assert_eq!(raw::plain_take(message, &mut again, &mut other), packed(&answer));
    assert!(again == wanted && other == expected, "the same again after {message:02X?}");
    answer
}

/// The same with a reply buffer that has room: number and failed ID.
pub fn told(message: &[u8], area: &mut Vec<u8>) -> (u8, u8) {
    let answer = take_into(message, area, REPLY_ROOM + message.len() % 3);
    (answer.number, answer.failed)
}

/// A started area.
pub fn started() -> Vec<u8> {
    let mut area = patterned(AREA_SIZE);
    assert!(Desk::start(&mut area).is_ok());
    assert_eq!(area, vec![0; AREA_SIZE]);
    area
}

/// A row by both calls and by the face, as the reference has it, in a scratch of so many bytes: its number, and what is shown.
pub fn row_into(table: u32, row: u32, area: &[u8], room: usize) -> Result<Vec<u8>, u8> {
    let (mut scratch, mut expected) = (patterned(room), patterned(room));
    let number = plain::plain_row_number(table, row, area, &expected);
    let shown = plain::plain_row_part(table, row, area, &mut expected);
    assert_eq!(shown != plain::PlainShown::Nothing, number == 0);
    let wanted = shown.bytes(&expected).to_vec();
    assert_eq!(raw::plain_row_number(table, row, area, &scratch), u32::from(number));
    let part = raw::plain_row_part(table, row, area, &mut scratch);
    // Bit 0, the scratch; 16 to 31 its start, which is 0; 32 to 47 the length.
    assert_eq!(part, if number == 0 { 1 | (wanted.len() as u64) << 32 } else { 0 });
    assert!(scratch == expected, "the whole scratch of table {table} row {row}");
    if let Some(named) = Table::from_number(table) {
        let (mut lent, mut scratch) = (area.to_vec(), patterned(room));
        let desk = Desk::lent(&mut lent);
        assert_eq!(number_of(&desk.check_row(named, row, &scratch)), number);
        let given = desk.row(named, row, &mut scratch);
        assert_eq!(number_of(&given), number);
        if let Ok(part) = given {
            assert_eq!(
                (part.bytes(), part.slice(), part.offset()),
                (&wanted[..], Slice::Scratch, 0)
            );
        }
        assert!(lent == area, "the screen only reads");
    }
    if number == 0 {
        Ok(wanted)
    } else {
        Err(number)
    }
}

/// The same with a scratch that has room.
pub fn row(table: u32, row: u32, area: &[u8]) -> Result<Vec<u8>, u8> {
    row_into(table, row, area, DESK_SCRATCH_ROOM + row as usize % 3)
}

/// A good request of so many bytes, from 15 to 3,099, of as few entries as can be, since a call takes time that grows with their square: quick text 63 is deleted,
/// each time with up to 23 units.
pub fn of_size(size: usize) -> Vec<u8> {
    let fields = size - 12;
    let count = fields.div_ceil(49);
    let count = count + (count + fields) % 2;
    let mut units = (fields - 3 * count) / 2;
    let mut entry = || {
        let own = units.min(23);
        units -= own;
        TextEntry { key: 63, text: vec![0x8B66; own] }
    };
    let entries = (0..count).map(|_| entry()).collect();
    let message = request(&[Setting::QuickTexts { operation: Operation::Delete, entries }.write()]);
    assert_eq!(message.len(), size);
    message
}

/// A desk and a store that are sent the same.
pub struct Both {
    pub area: Vec<u8>,
    pub store: Vec<u8>,
}

impl Both {
    pub fn started() -> Both {
        let mut store = patterned(otap::STORE_SIZE);
        assert!(Store::start(&mut store).is_ok());
        Both { area: started(), store }
    }

    /// 18 exactly where the store would take a request that passes the area's end, which it then is not sent; else the same answer and reply.
    pub fn take(&mut self, message: &[u8]) -> u8 {
        let (mut reply, mut expected) = (patterned(REPLY_ROOM + 3), patterned(REPLY_ROOM + 3));
        let mut store = Store::lent(&mut self.store);
        let judged = said(&store.judge(message, &mut expected));
        let end = 4 + used(&self.area) + 2 + message.len();
        let is_request = message.get(6).is_some_and(|byte| byte & 7 == 0);
        if judged.number == 0 && is_request && end > AREA_SIZE {
            let before = self.area.clone();
            let answer = said(&Desk::lent(&mut self.area).take(message, &mut reply));
            assert_eq!(answer, Answer { number: 18, ..Answer::default() });
            assert!(
                self.area == before && reply == patterned(REPLY_ROOM + 3),
                "nothing is written"
            );
            return 18;
        }
        store.commit(message, &mut expected);
        let answer = said(&Desk::lent(&mut self.area).take(message, &mut reply));
        assert_eq!(answer, judged, "{message:02X?}");
        assert!(reply == expected, "the whole reply buffer after {message:02X?}");
        answer.number
    }

    /// A row of the desk as the store shows it: whether it is shown.
    pub fn compare_row(&mut self, table: Table, row: u32) -> bool {
        let (mut scratch, mut other) = ([0xEE; DESK_SCRATCH_ROOM], [0xEE; SCRATCH_ROOM]);
        let (desk, store) = (Desk::lent(&mut self.area), Store::lent(&mut self.store));
        let wanted = store.row(table, row, &mut other).map(|shown| shown.bytes());
        let given = desk.row(table, row, &mut scratch).map(|shown| shown.bytes());
        assert_eq!(given, wanted, "{table:?} {row}");
        given.is_ok()
    }

    /// Every row of every table, and absent ones on either side; says how many were shown.
    pub fn compare_rows(&mut self) -> usize {
        let rows = Table::ALL.iter().flat_map(|&table| {
            let places = Store::places(table);
            (places.start.saturating_sub(1)..places.end + 1).map(move |row| (table, row))
        });
        rows.filter(|&(table, row)| self.compare_row(table, row)).count()
    }
}
