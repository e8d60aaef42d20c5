//! What the program is asked to do.

use crate::cases::{self, Case};
use crate::sides::Side;
use crate::{check, growth, stack, timing};
use std::process::ExitCode;

pub fn run() -> ExitCode {
    let words: Vec<String> = std::env::args().skip(1).collect();
    let words: Vec<&str> = words.iter().map(String::as_str).collect();
    match words[..] {
        [] => timing::table(),
        ["stack"] => stack::table(),
        ["check"] => check::table(),
        ["growth"] => growth::tables(None),
        ["growth", folder] => growth::tables(Some(folder)),
        ["list"] => cases::all().iter().for_each(|case| println!("{}", case.name)),
        ["one", name, side, calls] => return one(name, side, calls),
        _ => return usage(),
    }
    ExitCode::SUCCESS
}

fn usage() -> ExitCode {
    eprintln!(
        "usage: bench [stack | check | growth [FOLDER] | list | one NAME rattle|plain|checked N]"
    );
    ExitCode::FAILURE
}

fn one(name: &str, side: &str, calls: &str) -> ExitCode {
    let case = cases::all().into_iter().find(|case| case.name == name);
    let (Some(case), Ok(calls)) = (case, calls.parse()) else {
        return usage();
    };
    match side {
        "rattle" => repeat(&mut *cases::rattle(&case), &case, calls),
        "plain" => repeat(&mut cases::plain(&case), &case, calls),
        "checked" => repeat(&mut cases::checked(&case), &case, calls),
        _ => return usage(),
    }
    ExitCode::SUCCESS
}

/// Stands alone, so that a profiler can look at it only.
#[inline(never)]
fn repeat(side: &mut dyn Side, case: &Case, calls: u32) {
    for _ in 0..calls {
        std::hint::black_box(side.call(&case.call));
    }
}
