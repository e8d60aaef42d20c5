//! Median times of both sides, in one process and in turn.

use crate::cases::{self, Case};
use crate::clock;
use crate::sides::{Call, Side};
use std::hint::black_box;
use std::time::Duration;

const BATCHES: usize = 101;
const BATCH: Duration = Duration::from_micros(300);
/// What a small request may take of the least that it can.
const SMALL: f64 = 1.5;

/// What was measured of a case: median nanoseconds, and ratios of neighbouring batches.
struct Measured {
    name: String,
    rattle: f64,
    plain: f64,
    checked: f64,
    to_plain: f64,
    to_checked: f64,
}

pub fn table() {
    say_what_is_measured();
    println!("| call | message | Rattle ns | plain ns | checked ns | to plain | to checked |");
    println!("|---|---|---|---|---|---|---|");
    let all: Vec<Measured> = cases::all().iter().map(row).collect();
    small(&all);
    over(&all);
}

fn say_what_is_measured() {
    println!("Rattle: the verified archive through the face. Plain: the reference in rust/otap-reference, as it is.");
    println!("Checked: the same behind a plain check of all the store's bytes, which Rattle makes in every call too.");
    println!(
        "All on a full store, a vehicle's where the name says so, warm, {BATCHES} batches of about {} us on the processor in turn, median.",
        BATCH.as_micros()
    );
    println!("Every call leaves what it found, so each repetition starts from the same store without a copy.");
    println!("Plain works on tables, not on bytes: it allocates each text, and clones its tables for a request.");
    println!("The line numbers, 32 of a hand-held and 128 of a vehicle, differ only in their last two or three digits and the addresses of 64 contacts in their last byte, the worst for finding one.");
    println!("Plain writes every message of a report and gives one of them.");
    println!("Of a join the message is both requests together, of a check the request. Checked looks at both stores of a check and of a proposal.");
    println!("Plain finds a caller by search, in the lines from the first on, where Rattle halves their order.");
    println!("Of a conversion, checked is plain Rust behind a border as the archive's: a call that is not inlined, its answer packed and unpacked.");
    println!();
}

/// Measures a case and prints its row.
fn row(case: &Case) -> Measured {
    let [rattle, plain, checked] = compare(case);
    let (to_plain, to_checked) = (ratio(&rattle, &plain), ratio(&rattle, &checked));
    let [rattle, plain, checked] = [rattle, plain, checked].map(median);
    let length = message_length(case).map_or(String::new(), |length| length.to_string());
    let name = case.name.clone();
    println!("| {name} | {length} | {rattle:.0} | {plain:.0} | {checked:.0} | {to_plain:.2} | {to_checked:.2} |");
    Measured { name, rattle, plain, checked, to_plain, to_checked }
}

/// Requests of one small setting beside what they cannot do without: the check of the store, the archive's or plain Rust's, and two copies of it.
fn small(all: &[Measured]) {
    println!();
    println!("One small setting, to the archive's check and two copies of the store, and to plain Rust's and two copies.");
    println!("The goal is at most {SMALL:.1} of the first.");
    println!();
    println!("| call | ns | check and copies ns | ratio | plain check and copies ns | ratio |");
    println!("|---|---|---|---|---|---|");
    for begin in ["", "vehicle-"] {
        let least = all.iter().find(|case| case.name == format!("{begin}check-and-copies"));
        let least = least.expect("a case of each set");
        let of = |call| format!("{begin}{call}-small");
        for case in all
            .iter()
            .filter(|case| ["judge", "commit"].iter().any(|call| case.name.starts_with(&of(call))))
        {
            let (own, plain) = (case.rattle / least.rattle, case.rattle / least.checked);
            println!(
                "| {} | {:.0} | {:.0} | {own:.2} | {:.0} | {plain:.2} |",
                case.name, case.rattle, least.rattle, least.checked
            );
        }
    }
}

/// The cases in which the archive takes longer than checked plain Rust, the furthest first.
fn over(all: &[Measured]) {
    let mut over: Vec<&Measured> = all.iter().filter(|case| case.to_checked > 1.0).collect();
    over.sort_by(|one, other| other.to_checked.total_cmp(&one.to_checked));
    println!();
    println!("Over 1.0 to checked plain Rust: {} of {}.", over.len(), all.len());
    println!();
    for Measured { name, rattle, plain, checked, to_plain, to_checked } in over {
        println!("- {name}: {to_checked:.2} ({rattle:.0} ns, checked {checked:.0} ns; plain {plain:.0} ns, {to_plain:.2})");
    }
}

fn message_length(case: &Case) -> Option<usize> {
    match &case.call {
        Call::Judge(message) | Call::Commit(message) | Call::ReadReport(message) => {
            Some(message.len())
        }
        Call::Report(asked) => Some(asked.query.len()),
        Call::Join(pair) => Some(pair.size()),
        Call::CheckUpdate(update) => Some(update.request.len()),
        Call::PlainTake(kept) => Some(kept.query.len()),
        _ => None,
    }
}

/// The batches' times of each side, neighbours in time at the same place.
fn compare(case: &Case) -> [Vec<f64>; 3] {
    let (mut rattle, mut plain, mut checked) =
        (cases::rattle(case), cases::plain(case), cases::checked(case));
    let sides: [&mut dyn Side; 3] = [&mut *rattle, &mut plain, &mut checked];
    let mut sides = sides.map(|side| (calls_in_a_batch(side, case), side, Vec::new()));
    for _ in 0..BATCHES {
        for (calls, side, times) in &mut sides {
            times.push(batch(*side, case, *calls));
        }
    }
    sides.map(|(_, _, times)| times)
}

/// Nanoseconds for one call.
pub fn batch(side: &mut dyn Side, case: &Case, calls: u32) -> f64 {
    let start = clock::now();
    for _ in 0..calls {
        black_box(side.call(&case.call));
    }
    (clock::now() - start).as_nanos() as f64 / f64::from(calls)
}

pub fn calls_in_a_batch(side: &mut dyn Side, case: &Case) -> u32 {
    let mut calls = 1;
    while batch(side, case, calls) * f64::from(calls) < BATCH.as_nanos() as f64 {
        calls *= 2;
    }
    calls
}

/// Taken between neighbours, so that a machine which slows down meanwhile does not count.
fn ratio(first: &[f64], second: &[f64]) -> f64 {
    median(first.iter().zip(second).map(|(first, second)| first / second).collect())
}

pub fn median(mut times: Vec<f64>) -> f64 {
    times.sort_by(f64::total_cmp);
    times[times.len() / 2]
}
