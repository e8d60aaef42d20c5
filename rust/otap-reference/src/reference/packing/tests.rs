//! The packed answers, by hand.

use super::*;
use crate::reference::by_hand::taken;
use crate::reference::limits::HANDHELD;
use crate::reference::tables::Set;
use crate::reference::values::*;

fn entry_of(setting: &str, table: u32, index: u32) -> u64 {
    packed_entry(entry(table, index, true, &taken(&[setting])))
}

#[test]
fn entries_of_each_kind() {
    // Attribute 2, broadcast, OVCM and priority 1; a background group with encryption, emergency and priority 3.
    assert_eq!(entry_of("D1 00 09 6A 43 10 00 01 00 00", 4, 3), 0x01C8_1000_0100);
    assert_eq!(entry_of("D1 00 09 55 CF FF FF FF 00 00", 4, 15), 0x003E_FFFF_FF00);
    assert_eq!(entry_of("C8 00 0A 74 80 01 10 00 02 00 00", 6, 0), 0x0072_1000_0200);
    // Encryption and priority 2; emergency and priority 3.
    assert_eq!(entry_of("D2 00 09 68 05 10 00 01 00 00", 5, 5), 0x0012_1000_0100);
    assert_eq!(entry_of("C9 00 09 5C 01 10 00 02 00 00", 7, 0), 0x001C_1000_0200);
    // PABX with the first, PSTN with the second; PABX alone; PSTN without a flag.
    assert_eq!(entry_of("CA 00 09 6A 01 23 45 FF 00 00", 1, 0), 0x0013_0000_0000);
    assert_eq!(entry_of("D3 00 08 5C 0F 11 0F 00 00", 8, 15), 0x001C_0000_0000);
    assert_eq!(entry_of("D3 00 08 42 0F 11 0F 00 00", 8, 15), 0x0001_0000_0000);
    assert_eq!(entry_of("D3 00 08 40 0F 11 0F 00 00", 8, 15), 0);
}

/// All bits that an entry has: 8 to 40, of a group without IDtype.
#[test]
fn the_widest_entries() {
    assert_eq!(entry_of("D1 00 09 7F C0 FF FF FF 00 00", 4, 0), 0x01FE_FFFF_FF00);
    assert_eq!(entry_of("D2 00 09 7C 00 FF FF FF 00 00", 5, 0), 0x001E_FFFF_FF00);
    assert_eq!(entry_of("D3 00 08 7E 00 11 0F 00 00", 8, 0), 0x001F_0000_0000);
}

#[test]
fn digits_and_channels() {
    let set = taken(&[
        "CA 00 10 42 01 99 99 99 99 99 99 99 99 99 FF 00 00",
        "CA 00 07 40 01 3F 00 00",
        "CE 00 07 C0 02 0F 12 80",
    ]);
    let digits = |index| packed_digits(entry_digits(LINES, index, true, &set, &mut [0; 18]));
    assert_eq!([0, 1, 2].map(digits), [0x1200, 0x100, 17]);
    assert_eq!(packed_digits(entry_digits(LINES, 0, true, &set, &mut [0; 17])), 15);
    let channel = |position| packed_channel(channel(position, true, &set));
    assert_eq!([0, 1, 2].map(channel), [0xF100, 0x2_8000, 17]);
}

#[test]
fn keys() {
    let key = |setting| packed_emergency_key(emergency_key(true, &taken(&[setting])));
    assert_eq!(key("CB 00 06 60 10 00 01"), 0x0006_1000_0100);
    assert_eq!(key("CB 00 06 18 FF FF FF"), 0x0018_FFFF_FF00);
    assert_eq!(key("CB 00 03 C8"), 0x0013_0000_0000);
    assert_eq!(key("CB 00 03 F8"), 0x001F_0000_0000);
    assert_eq!(key("CB 00 03 80"), 0x0001_0000_0000);
}

#[test]
fn numbers_and_codes() {
    let home = |setting| packed_home_numbers(home_numbers(true, &taken(&[setting])));
    // NZI 15 and NP 806; NZI 511 and NP 1.
    assert_eq!(home("CD 00 05 07 E4 C0"), 0x064C_0F00);
    assert_eq!(home("CD 00 05 FF 80 20"), 0x0003_FF00);
    let code = |setting| packed_system_code(system_code(true, &taken(&[setting])));
    // LAI 123, LA 8, roaming 2, PAR 1; LAI FFF, LA 0, roaming 1, PAR 0.
    assert_eq!(code("CF 00 05 12 38 A0"), 0x0681_2300);
    assert_eq!(code("CF 00 05 FF F0 40"), 0x010F_FF00);
}

/// A fresh store: the key calls the current place, and all else is 0 or 17.
#[test]
fn fresh_answers() {
    let set = Set::fresh(HANDHELD);
    assert_eq!(packed_entry(entry(LINES, 0, true, &set)), 17);
    assert_eq!(packed_channel(channel(0, true, &set)), 17);
    assert_eq!(packed_emergency_key(emergency_key(true, &set)), 0x0001_0000_0000);
    assert_eq!(packed_home_numbers(home_numbers(true, &set)), 0);
    assert_eq!(packed_system_code(system_code(true, &set)), 0);
}

/// A refusal has no other bit, whatever the set holds.
#[test]
fn refusals() {
    let set = taken(&["CB 00 06 60 10 00 01", "CD 00 05 07 E4 C0", "CF 00 05 12 38 A0"]);
    assert_eq!(packed_entry(entry(GROUPS, 0, false, &set)), 11);
    assert_eq!(packed_digits(entry_digits(LINES, 0, false, &set, &mut [0; 18])), 11);
    assert_eq!(packed_channel(channel(0, false, &set)), 11);
    assert_eq!(packed_emergency_key(emergency_key(false, &set)), 11);
    assert_eq!(packed_home_numbers(home_numbers(false, &set)), 11);
    assert_eq!(packed_system_code(system_code(false, &set)), 11);
}
