//! Document 01's traps and the readings, each as the smallest message that falls into it.

use otap_reference::reference::commit::{
    commit_from, judge_and_commit, judge_from, Answer, REPLY_ROOM,
};
use otap_reference::reference::limits::HANDHELD;
use otap_reference::reference::message::{query, Hash};
use otap_reference::reference::numbers::*;
use otap_reference::reference::settings::Operation::{Add, Delete, Replace};
use otap_reference::reference::tables::Set;
use otap_tests::*;

const HOME: &str = "CD 00 05 00 00 00";

#[test]
fn a_fault_in_the_ninth_leaves_none_of_eight() {
    let mut settings = vec!["CD 00 05 07 E4 C0"; 8];
    settings.push("CD 00 05 07 E4 E0");
    let mut set = Set::fresh(HANDHELD);
    assert_eq!(number_in(&hex_request(&settings), &mut set), (BAD_FIELD, 9));
    assert_eq!(set, Set::fresh(HANDHELD));
}

#[test]
fn quick_text_add_keeps_what_is_there() {
    let set = taken(&request(&[quick(Add, &[(5, "a")]), quick(Add, &[(5, "b"), (6, "c")])]));
    assert_eq!(set.tables.quick_texts[5], Some(units("a")));
    assert_eq!(set.tables.quick_texts[6], Some(units("c")));
}

#[test]
fn repeated_keys_in_a_replace() {
    let quick_twice = taken(&request(&[quick(Replace, &[(5, "a"), (5, "b")])]));
    assert_eq!(quick_twice.tables.quick_texts[5], Some(units("a")));
    let status_twice = taken(&request(&[status(Replace, &[(32, "a"), (32, "b")])]));
    assert_eq!(status_twice.tables.status_texts[0], Some(units("b")));
    let line = "CA 00 11 C0 03 1F 00 41 00 00 2F 00 00 1F 00 42 00 00";
    let lines_twice = taken(&hex_request(&[line]));
    let texts: Vec<_> = lines_twice.tables.lines.iter().map(|line| line.text.clone()).collect();
    assert_eq!(texts, [units("B"), units("")]);
    let contacts = [(0x10_0001, "A"), (0x10_0002, ""), (0x10_0001, "B")];
    let contacts_twice = taken(&request(&[
        group_contacts(Replace, 2, &contacts),
        individual_contacts(Replace, &contacts),
    ]));
    let groups = contacts_twice.tables.group_contacts.iter().map(|contact| contact.text.clone());
    let individuals =
        contacts_twice.tables.individual_contacts.iter().map(|contact| contact.text.clone());
    assert!(groups.eq([units("B"), units("")]) && individuals.eq([units("B"), units("")]));
}

#[test]
fn padding_is_read() {
    assert_eq!(number_of(&hex_request(&["CE 00 06 C0 01 0F 1F"])), (TAKEN, 0));
    assert_eq!(number_of(&hex_request(&["CE 00 06 C0 01 0F 10"])), (BAD_FIELD, 1));
    assert_eq!(number_of(&hex_request(&["CA 00 09 40 01 23 45 FF 00 00"])), (TAKEN, 0));
    assert_eq!(number_of(&hex_request(&["CA 00 09 40 01 23 45 F0 00 00"])), (BAD_FIELD, 1));
}

#[test]
fn repeated_channels_are_kept_and_all_deleted() {
    let add = channels(Add, &[300, 241, 300]);
    assert_eq!(taken(&request(std::slice::from_ref(&add))).tables.channels, [300, 241, 300]);
    let both = [add, channels(Delete, &[300])];
    assert_eq!(taken(&request(&both)).tables.channels, [241]);
}

#[test]
fn data_length_is_not_trusted_to_skip() {
    assert_eq!(number_of(&hex_request(&["CD 00 06 00 00 00 00"])), (BAD_FIELD, 1));
    assert_eq!(number_of(&hex_request(&["CD 00 0B 00 00 00", HOME])), (BAD_FIELD, 1));
    assert_eq!(number_of(&hex_request(&["CD 00 04 00 00 00"])), (BAD_FIELD, 1));
}

#[test]
fn the_order_of_refusals() {
    let mut set = Set::fresh(HANDHELD);
    let good = hex_request(&[HOME]);
    let nothing = |number| Answer { number, ..Answer::default() };
    for (room, number) in [(REPLY_ROOM - 1, REPLY_SHORT), (REPLY_ROOM, NOT_A_STORE)] {
        assert_eq!(judge_from(&[], false, &set, &mut vec![0; room]), nothing(number));
        assert_eq!(commit_from(&[], false, &mut set, &mut vec![0; room]), nothing(number));
    }
    for (length, number) in [(6, MESSAGE_LENGTH), (7, WRONG_CARRIER)] {
        assert_eq!(number_of(&good[..length]), (number, 0));
    }
    assert_eq!(number_of(&vec![0; HANDHELD.message]), (WRONG_CARRIER, 0));
    assert_eq!(number_of(&vec![0; HANDHELD.message + 1]), (MESSAGE_LENGTH, 0));
    assert_eq!(number_of(&bytes("02 02 00 00 09 07 11")), (WRONG_CARRIER, 0));
    assert_eq!(number_of(&bytes("02 02 00 00 08 07 11")), (WRONG_MESSAGE_TYPE, 0));
    assert_eq!(number_of(&bytes("02 02 00 00 08 00 10")), (WRONG_VERSION, 0));
    assert_eq!(number_of(&bytes("02 02 00 00 08 07 08")), (BAD_FIELD, 0));
    assert_eq!(number_of(&bytes("02 02 00 00 08 07 08 00")), (BAD_FIELD, 0));
    assert_eq!(number_of(&bytes("02 02 00 00 08 06 08 01 00")), (BAD_FIELD, 0));
}

#[test]
fn refusals_without_reply_write_nothing() {
    let mut reply = [0xEE; REPLY_ROOM];
    let mut set = Set::fresh(HANDHELD);
    for message in ["02 02", "02 02 00 00 09 07 08", "02 02 00 00 08 07 0A"] {
        let answer = judge_and_commit(&bytes(message), &mut set, &mut reply);
        assert_eq!((answer.length, answer.send), (0, false));
        assert_eq!(reply, [0xEE; REPLY_ROOM]);
    }
}

#[test]
fn types_and_missing_types() {
    assert_eq!(number_of(&hex_request(&[HOME, "D4"])), (UNKNOWN_TYPE, 2));
    assert_eq!(number_of(&hex_request(&[HOME, "CD"])), (BAD_FIELD, 2));
    assert_eq!(number_of(&hex_request(&[HOME, ""])), (BAD_FIELD, 2));
    assert_eq!(number_of(&hex_request(&["D4 00 05 00 00 00", HOME])), (UNKNOWN_TYPE, 1));
}

#[test]
fn the_last_item_stands_last() {
    let last = "FF 00 03 00";
    assert_eq!(number_of(&hex_request(&[HOME, last])), (TAKEN, 0));
    assert_eq!(number_of(&hex_request(&[last, HOME])), (BAD_FIELD, 1));
    assert_eq!(number_of(&hex_request(&[last, ""])), (BAD_FIELD, 1));
    assert_eq!(number_of(&hex_request(&["FF 00 03 03"])), (BAD_FIELD, 1));
    assert_eq!(number_of(&hex_request(&["FF 00 03 01"])), (BAD_FIELD, 1));
}

#[test]
fn room_is_judged_after_fields_and_before_later_settings() {
    let mut many: Vec<u16> = vec![300; 65];
    let full = channels(Add, &many);
    assert_eq!(number_of(&request(&[full.clone(), bytes("D4")])), (NO_ROOM, 1));
    assert_eq!(number_of(&[request(&[full]), vec![0]].concat()), (WRONG_CARRIER, 0));
    many.push(641);
    assert_eq!(number_of(&request(&[channels(Add, &many)])), (BAD_FIELD, 1));
    let mut left_over = hex_request(&[HOME, HOME]);
    left_over[7] = 1;
    assert_eq!(number_of(&left_over), (BAD_FIELD, 0));
}

#[test]
fn room_freed_in_the_same_message_is_used() {
    let full = channels(Add, &[300; 64]);
    let set = taken(&request(&[full.clone(), channels(Delete, &[300]), full.clone()]));
    assert_eq!(set.tables.channels.len(), 64);
    assert_eq!(number_of(&request(&[full.clone(), channels(Replace, &[300; 64])])), (TAKEN, 0));
    assert_eq!(number_of(&request(&[full, channels(Add, &[300])])), (NO_ROOM, 2));
}

#[test]
fn known_lines_need_no_new_place() {
    let keys: Vec<Vec<u8>> = (0..32).map(|key| vec![key / 10, key % 10]).collect();
    let mut keys: Vec<&[u8]> = keys.iter().map(Vec::as_slice).collect();
    keys.push(&[0, 5]);
    assert_eq!(taken(&request(&[lines(Replace, &keys)])).tables.lines.len(), 32);
    keys.push(&[5]);
    assert_eq!(number_of(&request(&[lines(Replace, &keys)])), (NO_ROOM, 1));
}

#[test]
fn text_limits() {
    let sixteen = "D0 00 27 40 01 20".to_owned() + &" 00 41".repeat(16) + " 00 00";
    assert_eq!(number_of(&hex_request(&[&sixteen])), (TAKEN, 0));
    let seventeen = "D0 00 29 40 01 20".to_owned() + &" 00 41".repeat(17) + " 00 00";
    assert_eq!(number_of(&hex_request(&[&seventeen])), (BAD_FIELD, 1));
    let long = "x".repeat(23);
    assert_eq!(number_of(&request(&[quick(Add, &[(0, &long)])])), (TAKEN, 0));
    assert_eq!(number_of(&request(&[quick(Delete, &[(0, &long)])])), (TAKEN, 0));
    let longer = "x".repeat(24);
    assert_eq!(number_of(&request(&[quick(Add, &[(0, &longer)])])), (BAD_FIELD, 1));
    assert_eq!(number_of(&request(&[quick(Add, &[(0, "")])])), (BAD_FIELD, 1));
    assert_eq!(number_of(&request(&[quick(Replace, &[(0, "")])])), (BAD_FIELD, 1));
    assert_eq!(number_of(&request(&[quick(Delete, &[(0, "")])])), (TAKEN, 0));
}

#[test]
fn digit_limits() {
    for (digits, number) in [(0, BAD_FIELD), (1, TAKEN), (17, TAKEN), (18, TAKEN), (19, BAD_FIELD)]
    {
        let key = vec![7; digits];
        assert_eq!(number_of(&request(&[lines_add(&[&key])])).0, number, "{digits} digits");
    }
    for digit in 10..15 {
        assert_eq!(number_of(&request(&[lines_add(&[&[1, digit]])])), (BAD_FIELD, 1));
        assert_eq!(number_of(&request(&[lines(Delete, &[&[1, digit]])])), (BAD_FIELD, 1));
    }
}

#[test]
fn a_slot_delete_holds_only_its_text() {
    assert_eq!(number_of(&hex_request(&["D1 00 09 80 03 00 00 00 00 00"])), (TAKEN, 0));
    assert_eq!(number_of(&hex_request(&["D1 00 09 40 03 10 00 01 00 00"])), (BAD_FIELD, 1));
    assert_eq!(number_of(&hex_request(&["D1 00 09 50 03 10 00 01 00 00"])), (TAKEN, 0));
    assert_eq!(number_of(&hex_request(&["D1 00 09 60 03 10 80 00 00 00"])), (BAD_FIELD, 1));
    assert_eq!(number_of(&hex_request(&["D1 00 09 E0 03 10 00 01 00 00"])), (BAD_FIELD, 1));
    assert_eq!(number_of(&hex_request(&["D2 00 09 80 03 00 00 00 00 00"])), (TAKEN, 0));
    assert_eq!(number_of(&hex_request(&["D2 00 09 C0 03 10 00 01 00 00"])), (BAD_FIELD, 1));
    let long = "D2 00 2B 80 03 00 00 00".to_owned() + &" 00 41".repeat(17) + " 00 00";
    assert_eq!(number_of(&hex_request(&[&long])), (BAD_FIELD, 1));
}

/// Unlike one of D1 or D2: attribute, address and number are in range in a delete too.
#[test]
fn a_contact_delete_holds_every_field() {
    assert_eq!(number_of(&hex_request(&["C8 00 0A 80 00 01 10 00 01 00 00"])), (BAD_FIELD, 1));
    assert_eq!(number_of(&hex_request(&["C8 00 0A 90 00 01 10 00 01 00 00"])), (TAKEN, 0));
    assert_eq!(number_of(&hex_request(&["C8 00 0A 90 00 01 00 00 00 00 00"])), (BAD_FIELD, 1));
    assert_eq!(number_of(&hex_request(&["C9 00 09 80 01 10 80 00 00 00"])), (BAD_FIELD, 1));
    assert_eq!(number_of(&hex_request(&["D3 00 07 80 03 0F 00 00"])), (TAKEN, 0));
    assert_eq!(number_of(&hex_request(&["D3 00 07 80 03 FF 00 00"])), (BAD_FIELD, 1));
    assert_eq!(number_of(&hex_request(&["D3 00 07 C0 03 0F 00 00"])), (BAD_FIELD, 1));
}

/// The exported replace that empties the group contacts has attribute 01, for 00 is refused.
#[test]
fn a_replace_without_entries_has_an_attribute() {
    assert_eq!(number_of(&hex_request(&["C8 00 05 C0 00 00"])), (BAD_FIELD, 1));
    assert_eq!(number_of(&hex_request(&["C8 00 05 D0 00 00"])), (TAKEN, 0));
    assert_eq!(number_of(&hex_request(&["C9 00 04 C0 00"])), (TAKEN, 0));
}

#[test]
fn an_emergency_address_is_dropped() {
    let set = taken(&hex_request(&["CB 00 06 78 10 00 01", "CB 00 03 C8"]));
    let key = set.tables.emergency;
    assert_eq!(key.address, None);
    assert!(key.group && key.siren && !key.voice && !key.status);
    assert_eq!(number_of(&hex_request(&["CB 00 06 78 10 00 00"])), (BAD_FIELD, 1));
    assert_eq!(number_of(&hex_request(&["CB 00 06 80 10 00 01"])), (BAD_FIELD, 1));
}

#[test]
fn reserved_bits_are_ignored() {
    for (noisy, plain) in [
        ("CD 00 05 07 E4 DF", "CD 00 05 07 E4 C0"),
        ("CF 00 05 00 00 1F", "CF 00 05 00 00 00"),
        ("CE 00 06 FC 01 0F 1F", "CE 00 06 C0 01 0F 1F"),
        ("C8 00 0A 60 3F 01 10 00 01 00 00", "C8 00 0A 60 00 01 10 00 01 00 00"),
        ("C9 00 09 43 01 10 00 01 00 00", "C9 00 09 40 01 10 00 01 00 00"),
        ("D3 00 07 41 F3 1F 00 00", "D3 00 07 40 03 1F 00 00"),
    ] {
        assert_eq!(taken(&hex_request(&[noisy])), taken(&hex_request(&[plain])), "{noisy}");
    }
    let mut message = hex_request(&[HOME]);
    message[5] |= 0xF0;
    assert_eq!(number_of(&message), (TAKEN, 0));
}

#[test]
fn the_hash_kept_is_the_last_request_s() {
    let mut set = Set::fresh(HANDHELD);
    let hash = Hash::Crc([1, 2, 3, 4]);
    assert_eq!(number_in(&query(&hash), &mut set), (NO_MATCH, 0));
    assert_eq!(number_in(&hex_request(&["FF 00 07 C1 01 02 03 04"]), &mut set), (TAKEN, 0));
    assert_eq!(number_in(&query(&hash), &mut set), (TAKEN, 0));
    assert_eq!(number_in(&query(&Hash::Crc([1, 2, 3, 5])), &mut set), (NO_MATCH, 0));
    assert_eq!(number_in(&query(&Hash::Nothing), &mut set), (NO_MATCH, 0));
    assert_eq!(number_in(&hex_request(&["D4"]), &mut set), (UNKNOWN_TYPE, 1));
    assert_eq!(number_in(&query(&hash), &mut set), (TAKEN, 0));
    assert_eq!(number_in(&hex_request(&[HOME]), &mut set), (TAKEN, 0));
    assert_eq!(number_in(&query(&hash), &mut set), (NO_MATCH, 0));
    assert_eq!(number_in(&query(&Hash::Nothing), &mut set), (NO_MATCH, 0));
}

#[test]
fn replies_carry_the_hash_kept() {
    let mut set = Set::fresh(HANDHELD);
    let mut reply = [0; REPLY_ROOM];
    let last = hex_request(&["FF 00 0D C2 01 02 03 04 05 06 07 08 09 0A"]);
    let answer = judge_and_commit(&last, &mut set, &mut reply);
    assert_eq!(answer, Answer { number: 0, failed: 0, send: true, reboot: true, length: 20 });
    let hash = "02 01 02 03 04 05 06 07 08 09 0A";
    assert_eq!(reply, bytes(&format!("02 02 00 10 08 00 09 00 00 {hash}"))[..]);
    let answer = judge_and_commit(&query(&Hash::Crc([0; 4])), &mut set, &mut reply);
    assert_eq!(answer, Answer { number: 5, failed: 0, send: true, reboot: false, length: 20 });
    assert_eq!(reply, bytes(&format!("02 02 00 10 08 00 09 05 00 {hash}"))[..]);
    let answer = judge_and_commit(&hex_request(&["D4"]), &mut set, &mut reply);
    assert_eq!(answer, Answer { number: 3, failed: 1, send: true, reboot: false, length: 10 });
    assert_eq!(reply[..10], bytes("02 02 00 06 08 00 09 03 01 00"));
}

#[test]
fn malformed_queries() {
    for data in ["0D", "0D 03", "0D 00 00", "0D 01 00 00 00", "0D 01 00 00 00 00 00", "0D 3F"] {
        let message = bytes(&format!("02 02 00 00 08 00 {data}"));
        assert_eq!(number_of(&message), (BAD_FIELD, 0), "{data}");
    }
    assert_eq!(number_of(&bytes("02 02 00 00 08 FF 0D C0")), (NO_MATCH, 0));
}
