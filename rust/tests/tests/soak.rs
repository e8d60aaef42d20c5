//! The command `soak`: a short one, and that it finds each deliberate difference and shrinks what it sent.

use otap_reference::reference::texts::Coding;
use otap_tests::soak::options::{Options, Which};
use otap_tests::soak::shrink::reduced;
use otap_tests::soak::tally::Tally;
use otap_tests::soak::wrong::Wrong;
use otap_tests::soak::{replay, soak, Found};
use otap_tests::types_of;
use std::path::PathBuf;
use std::process::{Command, Output};

fn quiet(options: &Options) -> Result<Tally, Box<Found>> {
    soak(options, &mut |_| {})
}

/// Both archives stay beside the reference, and meet every number that a message can have and every setting under both coding types.
#[test]
fn a_short_soak_finds_no_difference() {
    let options = Options { messages: 20_000, seed: 7, ..Options::default() };
    let tally = quiet(&options).unwrap_or_else(|found| panic!("{}", found.shrunk.difference));
    println!("{tally}");
    // Each set has its own thousands.
    assert!(tally.messages == 20_000 && tally.all >= 19, "{} times all", tally.all);
    for number in [0, 1, 2, 3, 4, 5, 12, 13, 14] {
        assert!(tally.numbers[&number] > 100, "number {number}");
    }
    for kind in (0xC8..=0xD3).chain([0xFF]) {
        for coding in [0b0100, 0b0111] {
            assert!(tally.taken[&(kind, coding)] > 500, "type {kind:02X} under {coding:04b}");
        }
    }
}

/// The same seed sends the same, another one does not.
#[test]
fn a_seed_says_what_is_sent() {
    let [one, again, other] = [1, 1, 2].map(|seed| {
        let options = Options { messages: 2_000, seed, ..Options::default() };
        quiet(&options).expect("no difference")
    });
    assert_eq!(one, again);
    assert_ne!(one, other);
}

#[test]
fn a_wrong_handheld_is_found() {
    Wrong::ALL.iter().for_each(|&wrong| is_found(wrong, Which::Handheld));
}

#[test]
fn a_wrong_vehicle_is_found() {
    Wrong::ALL.iter().for_each(|&wrong| is_found(wrong, Which::Vehicle));
}

/// Within a few thousand messages, and shown by very few.
fn is_found(wrong: Wrong, set: Which) {
    let options =
        Options { messages: 5_000, seed: 11, set, wrong: Some(wrong), ..Options::default() };
    let found = quiet(&options).expect_err("something is wrong").shrunk;
    let bytes: usize = found.messages.iter().map(Vec::len).sum();
    println!("{wrong:?} of {set:?}: {} messages, {bytes} bytes", found.messages.len());
    // A full table takes as many entries as it has places.
    let (most, many) = if wrong == Wrong::Answer { (4, 1_500) } else { (2, 60) };
    assert!(found.messages.len() <= most, "{wrong:?}: {} messages", found.messages.len());
    assert!(bytes <= many, "{wrong:?}: {bytes} bytes");
    // It is the archive's answer that differs: with nothing wrong the same records show nothing.
    let records = found.records();
    assert!(replay(&records, &options).is_err(), "{wrong:?} is shown again");
    let right = Options { wrong: None, ..options };
    assert!(replay(&records, &right).is_ok(), "{wrong:?} is not shown by a right archive");
}

/// Where a request shows it, every message that is left has one setting of its kind.
#[test]
fn what_is_left_is_what_shows_it() {
    let wrong = Some(Wrong::Value);
    let options = Options { messages: 5_000, seed: 5, wrong, ..Options::default() };
    let found = quiet(&options).expect_err("the sixth channel is wrong").shrunk;
    let coding = Coding::from_number(found.messages[0][5]);
    let kinds = types_of(&found.messages[0], coding.expect("a coding type"));
    assert_eq!((found.messages.len(), kinds), (1, vec![0xCE]));
    // Six channels of 12 bits behind their count.
    assert_eq!(found.messages[0].len(), 8 + 5 + 9);
}

#[test]
fn lists_are_reduced_to_what_is_needed() {
    let list: Vec<u32> = (0..100).collect();
    let needed = |kept: &[u32]| [17, 80].iter().all(|one| kept.contains(one));
    assert_eq!(reduced(list.clone(), &mut |kept| needed(kept)), [17, 80]);
    assert_eq!(reduced(list.clone(), &mut |_| true), []);
    assert_eq!(reduced(list.clone(), &mut |_| false), list);
    assert_eq!(reduced(Vec::<u32>::new(), &mut |_| true), []);
}

#[test]
fn words_of_the_command() {
    let read = |words: &str, wrong| {
        let words: Vec<String> = words.split_whitespace().map(String::from).collect();
        Options::read(&words, wrong)
    };
    let all = read("--messages 5 --seed 9 --set vehicle --records a.rec", Some("row"));
    let records = Some("a.rec".to_string());
    let wanted =
        Options { messages: 5, seed: 9, set: Which::Vehicle, records, wrong: Some(Wrong::Row) };
    assert_eq!(all, Ok(wanted));
    assert_eq!(read("", None), Ok(Options::default()));
    for words in ["--messages", "--messages x", "--seed -1", "--set radio", "--fast 1"] {
        assert!(read(words, None).is_err(), "{words}");
    }
    assert!(read("", Some("nothing")).is_err());
}

/// The command in a folder of its own.
fn run(name: &str, words: &[&str], wrong: Option<&str>) -> (Output, PathBuf) {
    let folder = PathBuf::from(env!("CARGO_TARGET_TMPDIR")).join(name);
    std::fs::create_dir_all(&folder).expect("a folder");
    let mut command = Command::new(env!("CARGO_BIN_EXE_soak"));
    command.args(words).current_dir(&folder).env_remove("SOAK_WRONG");
    if let Some(wrong) = wrong {
        command.env("SOAK_WRONG", wrong);
    }
    (command.output().expect("the command runs"), folder)
}

#[test]
fn the_command_ends_with_what_it_found() {
    let (right, _) = run("soak-right", &["--messages", "300", "--seed", "4"], None);
    assert_eq!(right.status.code(), Some(0));
    let printed = String::from_utf8_lossy(&right.stdout).into_owned();
    assert!(printed.starts_with("300 messages, seed 4, Both: no difference"), "{printed}");
    let (wrong, _) = run("soak-use", &["--set", "radio"], None);
    assert_eq!((wrong.status.code(), wrong.stdout.len()), (Some(2), 0));
}

/// A difference ends it with 1, its messages are printed and kept, and the kept ones show it again.
#[test]
fn the_command_keeps_what_shows_a_difference() {
    let words = ["--messages", "3000", "--seed", "4", "--set", "handheld"];
    let (found, folder) = run("soak-wrong", &words, Some("store"));
    let printed = String::from_utf8_lossy(&found.stdout).into_owned();
    assert_eq!(found.status.code(), Some(1), "{printed}");
    assert!(printed.contains("byte 24575 of the store: archive 01, reference 00"), "{printed}");
    let records = folder.join("differs-soak-handheld-4.rec");
    let kept = records.to_str().expect("a path");
    let words = ["--set", "handheld", "--records", kept];
    assert_eq!(run("soak-wrong", &words, Some("store")).0.status.code(), Some(1));
    assert_eq!(run("soak-wrong", &words, None).0.status.code(), Some(0));
}
