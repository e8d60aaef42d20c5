//! The program's lines: the example of docs/REPORTS.md, and what it does not show.

use super::*;
use crate::records::push_record;

fn bytes(hex: &str) -> Vec<u8> {
    hex.split_whitespace()
        .map(|word| u8::from_str_radix(word, 16).expect("two hex digits"))
        .collect()
}

/// A report with these parameters and nothing else.
fn report(total: u8, index: u8, parameters: &[&str]) -> Vec<u8> {
    let data = bytes(&parameters.join(" "));
    let length = (data.len() + 6) as u8;
    [vec![2, 2, 0, length, 8, 7, 0x0B, total, index, parameters.len() as u8], data].concat()
}

fn records(messages: &[&[u8]]) -> Vec<u8> {
    let mut out = Vec::new();
    for (kind, message) in (7..).zip(messages) {
        push_record(&mut out, kind, message);
    }
    out
}

fn prints(messages: &[&[u8]]) -> String {
    office_prints(&records(messages))
}

const EXAMPLE: [&str; 11] = [
    "88 00 10 00 01 05 20 00 41 00 00",
    "89 00 10 03 E9 F7 00 00",
    "8A 00 80 00 23 45 FF 00 41 00 00",
    "8B 00 A8 10 00 01",
    "8C 00 14 00 41 00 00",
    "8D 00 00 E4 C0",
    "8E 00 0F 10 00",
    "8F 00 00 18 A0",
    "90 00 21 00 00 42 00 00",
    "BF 01 01 01 02 03 04",
    "D1 83",
];

const SHOWN: &str = r#"message 1 of 1, 11 parameters
  group contact 0: 100001 "A" attribute 1 broadcast 0 encryption 1 OVCM 0 emergency 0 priority 2
  individual contact 15: 1003E9 "" encryption 0 emergency 1 priority 3
  line contact 0: PABX 2345 "A" encryption 0 emergency 0 priority 0
  emergency key: group 100001 voice 1 status 0 siren 1
  quick text 5: "A"
  home numbers: NZI 1 NP 806
  scan channel 0: 241
  system code: LAI 1 LA 8 roaming 2 PAR 1
  status text 33: "B"
  kept hash: code 1 value 01020304
  unknown type D1
refused 14
"#;

/// A report with all parameters, and a request.
#[test]
fn the_example() {
    let request = bytes("02 02 00 0B 08 07 08 01 CE 00 06 C0 01 0F 1F");
    assert_eq!(prints(&[&report(1, 1, &EXAMPLE), &request]), SHOWN);
}

#[test]
fn what_the_example_does_not_show() {
    let message = report(
        2,
        2,
        &[
            "8B 00 11 FF FF FF",
            "8B 00 40 00 00 00",
            "8B 00 E8 00 00 00",
            "8A 00 78 0F 01 2F 00 00",
            "BF 00",
            "BF 01 02 0A 0B 0C 0D 0E 0F A0 B0 C0 D0",
            "88 00 10 00 01 0E B0 00 00",
            "90 00 7F FF 00 00",
            "0A 83",
        ],
    );
    let lines = r#"message 2 of 2, 9 parameters
  emergency key: individual FFFFFF voice 0 status 1 siren 0
  emergency key: current place group 0 voice 0 status 0 siren 0
  emergency key: current place group 1 voice 1 status 0 siren 1
  line contact 15: PSTN 012 "" encryption 1 emergency 1 priority 3
  kept hash: none
  kept hash: code 2 value 0A0B0C0D0E0FA0B0C0D0
  group contact 0: 100001 "" attribute 3 broadcast 1 encryption 0 OVCM 1 emergency 0 priority 3
  status text 127: ""
  unknown type 0A
"#;
    assert_eq!(prints(&[&message]), lines);
}

/// A pair is one character, any other surrogate U+FFFD, and what is neither stands as it is.
#[test]
fn texts() {
    let message = report(1, 1, &["90 00 20 00 4E 2D D8 3D DE 00 DE 00 D8 3D 00 22 00 00"]);
    let lines = "message 1 of 1, 1 parameters\n  status text 32: \"中😀\u{FFFD}\u{FFFD}\"\"\n";
    assert_eq!(prints(&[&message]), lines);
}

#[test]
fn nothing_to_report() {
    assert_eq!(prints(&[&report(1, 1, &[])]), "message 1 of 1, 0 parameters\n");
    assert_eq!(prints(&[]), "");
}

#[test]
fn refusals() {
    let mut other = report(1, 1, &["D1 83"]);
    other[6] = 0x13;
    let mut carrier = report(1, 1, &["D1 83"]);
    carrier[0] = 3;
    let damaged = report(1, 1, &["CE 83"]);
    let lines = "refused 1\nrefused 13\nrefused 4\nrefused 12\nrefused 12\nrefused 12\n";
    let long = [0xEE; 4_097];
    assert_eq!(prints(&[&other, &carrier, &damaged, &[], &long, &[2; 6]]), lines);
}

/// Every cut of two records: what was whole is shown, and then that one was cut.
#[test]
fn cut_records() {
    let message = report(1, 1, &["D1 83"]);
    let shown = "message 1 of 1, 1 parameters\n  unknown type D1\n";
    let input = records(&[&message, &message]);
    for length in 0..=input.len() {
        let whole = length / (message.len() + 4);
        let end = if length % (message.len() + 4) == 0 { "" } else { "cut\n" };
        assert_eq!(office_prints(&input[..length]), shown.repeat(whole) + end, "{length}");
    }
}
