//! The words behind the command.

use super::wrong::Wrong;
use std::str::FromStr;

pub const USAGE: &str =
    "usage: soak --messages N --seed S [--set handheld|vehicle|both] [--records FILE]";

#[derive(Clone, Copy, Debug, PartialEq, Eq)]
pub enum Which {
    Handheld,
    Vehicle,
    Both,
}

#[derive(Clone, Debug, PartialEq, Eq)]
pub struct Options {
    pub messages: u64,
    pub seed: u64,
    pub set: Which,
    /// Records to send instead.
    pub records: Option<String>,
    pub wrong: Option<Wrong>,
}

impl Default for Options {
    fn default() -> Self {
        Options { messages: 20_000, seed: 1, set: Which::Both, records: None, wrong: None }
    }
}

impl Options {
    /// By the words; what is wrong with the archive is no word, since nobody but a test wants that.
    pub fn read(words: &[String], wrong: Option<&str>) -> Result<Options, String> {
        let mut options = Options::default();
        for pair in words.chunks(2) {
            let [name, value] = pair else { return Err(format!("{} has no value", pair[0])) };
            match name.as_str() {
                "--messages" => options.messages = number(name, value)?,
                "--seed" => options.seed = number(name, value)?,
                "--set" => options.set = set(value)?,
                "--records" => options.records = Some(value.clone()),
                _ => return Err(format!("{name} is not known")),
            }
        }
        let named = |name: &str| Wrong::named(name).ok_or(format!("nothing is wrong as {name}"));
        options.wrong = wrong.map(named).transpose()?;
        Ok(options)
    }
}

fn number<T: FromStr>(name: &str, value: &str) -> Result<T, String> {
    value.parse().map_err(|_| format!("{name} is no number: {value}"))
}

fn set(value: &str) -> Result<Which, String> {
    match value {
        "handheld" => Ok(Which::Handheld),
        "vehicle" => Ok(Which::Vehicle),
        "both" => Ok(Which::Both),
        _ => Err(format!("no set is named {value}")),
    }
}
