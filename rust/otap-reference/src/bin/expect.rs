//! Prints what document 01's program `take` must print for the records on standard input.

use std::io::{self, Read, Write};

fn main() -> io::Result<()> {
    let mut input = Vec::new();
    io::stdin().read_to_end(&mut input)?;
    io::stdout().write_all(otap_reference::programs::take_prints(&input).as_bytes())
}
