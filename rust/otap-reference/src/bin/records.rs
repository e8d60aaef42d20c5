//! `records SEED COUNT`: writes COUNT records, a sequence for one fresh set. `records reports SEED COUNT`: as many of messages for the office's reader.

use otap_reference::inputs::Inputs;
use otap_reference::records::push_record;
use otap_reference::reference::limits::HANDHELD;
use std::io::{self, Write};
use std::process::ExitCode;

type Record = (u16, Vec<u8>);

fn main() -> ExitCode {
    let words: Vec<String> = std::env::args().skip(1).collect();
    let words: Vec<&str> = words.iter().map(String::as_str).collect();
    let (next, numbers): (fn(&mut Inputs) -> Record, _) = match words[..] {
        ["reports", seed, count] => (Inputs::report_record, [seed, count]),
        [seed, count] => (Inputs::record, [seed, count]),
        _ => return usage(),
    };
    let [Ok(seed), Ok(count)] = numbers.map(str::parse::<u64>) else { return usage() };
    let mut inputs = Inputs::new(seed, HANDHELD);
    let mut out = Vec::new();
    for _ in 0..count {
        let (kind, message) = next(&mut inputs);
        push_record(&mut out, kind, &message);
    }
    match io::stdout().write_all(&out) {
        Ok(()) => ExitCode::SUCCESS,
        Err(_) => ExitCode::FAILURE,
    }
}

fn usage() -> ExitCode {
    eprintln!("usage: records [reports] SEED COUNT");
    ExitCode::FAILURE
}
