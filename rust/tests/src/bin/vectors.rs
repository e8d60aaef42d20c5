//! `vectors handheld` or `vectors vehicle`: prints the file of calls that is stored in web/tests/vectors.

use otap_tests::vectors::vectors;
use std::process::ExitCode;

fn main() -> ExitCode {
    let words: Vec<String> = std::env::args().skip(1).collect();
    match words.iter().map(String::as_str).collect::<Vec<_>>()[..] {
        ["handheld"] => print!("{}", vectors::<otap::Handheld>()),
        ["vehicle"] => print!("{}", vectors::<otap::Vehicle>()),
        _ => {
            eprintln!("usage: vectors handheld|vehicle");
            return ExitCode::FAILURE;
        }
    }
    ExitCode::SUCCESS
}
