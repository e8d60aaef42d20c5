//! Document 01's worked examples 1 to 12, document 02's with both lines, and the input of the program `take`.

use otap_reference::records::{Record, Records};
use otap_reference::reference::commit::{judge_and_commit, Answer};
use otap_reference::reference::limits::HANDHELD;
use otap_reference::reference::numbers::*;
use otap_reference::reference::plan::*;
use otap_reference::reference::settings::{parse, Fault, HomeNumbers, Setting};
use otap_reference::reference::tables::{Line, Set};
use otap_reference::reference::texts::Coding;
use otap_tests::{bytes, lines_add, number_of, request, taken};

#[test]
fn examples_1_to_4_individual_numbers() {
    let table = [
        (32_820_200, 0x10_0001),
        (32_841_899, 0x10_3C28),
        (32_842_200, 0x10_3C29),
        (80_689_549, 0xFF_7DC8),
    ];
    for (dialled, address) in table {
        assert_eq!(individual(dialled), Ok(IndividualAddress(address)));
        assert_eq!(dialled_individual(IndividualAddress(address)), Ok(dialled));
    }
    assert_eq!(individual(32_819_200), Err(OUTSIDE_PLAN));
    assert_eq!(individual(32_842_550), Err(OUTSIDE_PLAN));
}

#[test]
fn examples_5_and_6_group_numbers() {
    for (dialled, address) in [(32_820_900, 0x10_0001), (80_689_999, 0xFF_1B58)] {
        assert_eq!(group(dialled), Ok(GroupAddress(address)));
        assert_eq!(dialled_group(GroupAddress(address)), Ok(dialled));
    }
}

#[test]
fn example_7_channels() {
    for (number, value) in [(240, 3_610_000), (241, 3_510_125), (560, 3_550_000), (640, 3_560_000)]
    {
        assert_eq!(transmit(number), Ok(value));
        assert_eq!(channel(value), Ok(number));
    }
    assert_eq!(transmit(0), Err(NO_SUCH_CHANNEL));
    assert_eq!(transmit(641), Err(NO_SUCH_CHANNEL));
}

#[test]
fn example_8_line_numbers() {
    for (digits, written) in [(vec![2, 3, 4, 5], "23 45 FF"), (vec![1, 2, 3], "12 3F")] {
        let setting = lines_add(&[&digits]);
        let expected =
            format!("CA 00 {:02X} 40 01 {written} 00 00", 6 + written.split(' ').count());
        assert_eq!(setting, bytes(&expected));
    }
}

#[test]
fn example_9_home_numbers() {
    let home = Setting::Home(HomeNumbers { nzi: 15, np: 806 });
    assert_eq!(home.write(), bytes("CD 00 05 07 E4 C0"));
    for coding in Coding::ALL {
        assert_eq!(parse(&home.write(), coding, true), Ok((home.clone(), 6)));
        assert_eq!(parse(&bytes("CD 00 05 07 E4 E0"), coding, true), Err(Fault::Field));
    }
}

#[test]
fn example_10_replaces_the_channels() {
    let mut set = Set::fresh(HANDHELD);
    let mut reply = [0xEE; 24];
    let message = bytes("02 02 00 0C 08 07 08 01 CE 00 07 C0 02 0F 12 80");
    let answer = judge_and_commit(&message, &mut set, &mut reply);
    assert_eq!(answer, Answer { number: 0, failed: 0, send: false, reboot: false, length: 10 });
    assert_eq!(set.tables.channels, [241, 640]);
    assert_eq!(reply[..10], bytes("02 02 00 06 08 00 09 00 00 00"));
    assert!(reply[10..].iter().all(|&byte| byte == 0xEE), "bytes past the length stay");
}

#[test]
fn example_11_adds_a_line() {
    let set = taken(&bytes("02 02 00 0E 08 07 08 01 CA 00 09 42 01 23 45 FF 00 00"));
    let [line] = &set.tables.lines[..] else { panic!("one line") };
    assert_eq!(line.digits, [2, 3, 4, 5]);
    assert!(line.flags.pabx && !line.flags.encryption && !line.flags.emergency);
    assert!(line.text.is_empty());
}

/// The case of request A3: extension and telephone 2345 are both present, and one is deleted.
#[test]
fn example_11_and_the_telephone() {
    let [extension, telephone, delete] =
        ["42", "40", "82"].map(|head| bytes(&format!("CA 00 09 {head} 01 23 45 FF 00 00")));
    let both = taken(&request(&[extension.clone(), telephone.clone()]));
    let number: &[u8] = &[2, 3, 4, 5];
    let keys: Vec<_> = both.tables.lines.iter().map(Line::key).collect();
    assert_eq!(keys, [(true, number), (false, number)]);
    let one = taken(&request(&[extension, telephone.clone(), delete]));
    assert_eq!(one, taken(&request(&[telephone])));
}

#[test]
fn example_12_la_9_and_the_33rd_line() {
    assert_eq!(number_of(&request(&[bytes("CF 00 05 00 09 00")])), (BAD_FIELD, 1));
    assert_eq!(number_of(&request(&[bytes("CF 00 05 00 08 00")])), (TAKEN, 0));
    let keys: Vec<Vec<u8>> = (0..33).map(|key| vec![key / 10, key % 10]).collect();
    let keys: Vec<&[u8]> = keys.iter().map(Vec::as_slice).collect();
    assert_eq!(number_of(&request(&[lines_add(&keys)])), (NO_ROOM, 1));
    assert_eq!(number_of(&request(&[lines_add(&keys[..32])])), (TAKEN, 0));
}

#[test]
fn the_program_s_input() {
    let input = bytes("0F 00 04 00 02 02 00 0B 08 07 08 01 CE 00 06 C0 01 0F 1F");
    let mut records = Records::new(&input);
    let Some(Record::Whole { kind: 4, message }) = records.next() else { panic!("one record") };
    assert_eq!(number_of(message), (TAKEN, 0));
    assert!(records.next().is_none());
}

#[test]
fn cut_records_end_the_input() {
    for length in [1, 3, 4, 10, 18] {
        let input = bytes("0F 00 04 00 02 02 00 0B 08 07 08 01 CE 00 06 C0 01 0F 1F");
        let mut records = Records::new(&input[..length]);
        assert!(matches!(records.next(), Some(Record::Cut)), "{length} bytes");
        assert!(records.next().is_none());
    }
}
