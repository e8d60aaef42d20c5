//! Prints what the office's program `office` must print for the records of reports on standard input.

use std::io::{self, Read, Write};

fn main() -> io::Result<()> {
    let mut input = Vec::new();
    io::stdin().read_to_end(&mut input)?;
    let lines = otap_reference::programs::office::office_prints(&input);
    io::stdout().write_all(lines.as_bytes())
}
