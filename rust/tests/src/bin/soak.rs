//! `soak --messages N --seed S [--set handheld|vehicle|both] [--records FILE]`: the archives and the reference on seeded messages, or on those of a file.
//! Ends with 0 where they stay alike, and with 1 at the first difference, which is printed with the shortest messages that show it, and kept as records.

use otap_reference::records::{push_record, Record, Records};
use otap_tests::soak::options::{Options, USAGE};
use otap_tests::soak::question::hex;
use otap_tests::soak::{replay, soak, Found};
use std::io::{self, Write};
use std::process::ExitCode;
use std::time::{Duration, Instant};

fn main() -> ExitCode {
    let words: Vec<String> = std::env::args().skip(1).collect();
    let wrong = std::env::var("SOAK_WRONG").ok();
    let options = match Options::read(&words, wrong.as_deref()) {
        Ok(options) => options,
        Err(why) => {
            eprintln!("soak: {why}\n{USAGE}");
            return ExitCode::from(2);
        }
    };
    match options.records.clone() {
        None => run(&options),
        Some(file) => run_records(&file, &options),
    }
}

fn run(options: &Options) -> ExitCode {
    let start = Instant::now();
    let mut next = Duration::from_secs(1);
    let found = soak(options, &mut |sent| {
        if start.elapsed() >= next {
            next = start.elapsed() + Duration::from_secs(5);
            progress(sent, options, start.elapsed());
        }
    });
    let taken = start.elapsed();
    match found {
        Ok(tally) => {
            let rate = tally.messages as f64 / taken.as_secs_f64();
            let (messages, seed, set) = (tally.messages, options.seed, options.set);
            print!(
                "{messages} messages, seed {seed}, {set:?}: no difference; {rate:.0} a second, "
            );
            println!("{}", clock(taken));
            print!("{tally}");
            ExitCode::SUCCESS
        }
        Err(found) => {
            let records = format!("differs-soak-{}-{}.rec", found.set, options.seed);
            keep(&records, &found);
            print_found(&found);
            println!("kept as {records}");
            if replay(&found.shrunk.records(), options).is_err() {
                println!("soak --set {} --records {records} shows it", found.set);
            }
            ExitCode::FAILURE
        }
    }
}

fn run_records(file: &str, options: &Options) -> ExitCode {
    let input = match std::fs::read(file) {
        Ok(input) => input,
        Err(why) => {
            eprintln!("soak: {file}: {why}");
            return ExitCode::from(2);
        }
    };
    let whole = Records::new(&input).filter_map(|record| match record {
        Record::Whole { message, .. } => Some(message.to_vec()),
        Record::Cut => None,
    });
    let messages: Vec<Vec<u8>> = whole.collect();
    match replay(&messages, options) {
        Ok(()) => {
            println!("{} messages of {file}: no difference", messages.len());
            ExitCode::SUCCESS
        }
        Err((place, found)) => {
            println!("message {} of {file}:", place + 1);
            print_found(&found);
            ExitCode::FAILURE
        }
    }
}

/// Over the line before, where that is a terminal's.
fn progress(sent: u64, options: &Options, taken: Duration) {
    let rate = sent as f64 / taken.as_secs_f64();
    let left = Duration::from_secs_f64((options.messages - sent) as f64 / rate);
    let line = format!(
        "{sent} of {} messages, {rate:.0} a second, seed {}, {} left",
        options.messages,
        options.seed,
        clock(left)
    );
    if io::IsTerminal::is_terminal(&io::stderr()) {
        eprint!("\r{line}   ");
    } else {
        eprintln!("{line}");
    }
    let _ = io::stderr().flush();
}

/// Minutes and seconds.
fn clock(time: Duration) -> String {
    let seconds = time.as_secs_f64().ceil() as u64;
    format!("{}:{:02}", seconds / 60, seconds % 60)
}

fn keep(records: &str, found: &Found) {
    let mut out = Vec::new();
    for message in found.shrunk.records() {
        push_record(&mut out, 0, &message);
    }
    if let Err(why) = std::fs::write(records, out) {
        eprintln!("soak: {records}: {why}");
    }
}

fn print_found(found: &Found) {
    println!(
        "\na difference of the {}, shown by {} messages:",
        found.set,
        found.shrunk.messages.len()
    );
    for (place, message) in found.shrunk.messages.iter().enumerate() {
        println!("message {}, {} bytes: {}", place + 1, message.len(), hex(message));
    }
    print!("{}", found.shrunk.difference);
}
