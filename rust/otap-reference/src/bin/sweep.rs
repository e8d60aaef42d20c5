//! `sweep BASE`: writes records with every one-byte change of one small message.

use otap_reference::inputs::sweep::{sweep, BASES};
use otap_reference::records::push_record;
use std::io::{self, Write};
use std::process::ExitCode;

fn main() -> ExitCode {
    let place = std::env::args().nth(1).and_then(|word| word.parse::<usize>().ok());
    let Some(&base) = place.and_then(|place| BASES.get(place)) else {
        eprintln!("usage: sweep BASE, from 0 to {}", BASES.len() - 1);
        return ExitCode::FAILURE;
    };
    let mut out = Vec::new();
    for (kind, message) in (0..).zip(sweep(base)) {
        push_record(&mut out, kind, &message);
    }
    match io::stdout().write_all(&out) {
        Ok(()) => ExitCode::SUCCESS,
        Err(_) => ExitCode::FAILURE,
    }
}
