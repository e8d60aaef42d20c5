//! Writes the ten records that document 01's program `put` must write for the records on standard input.

use std::io::{self, Read, Write};

fn main() -> io::Result<()> {
    let mut input = Vec::new();
    io::stdin().read_to_end(&mut input)?;
    io::stdout().write_all(&otap_reference::programs::put_writes(&input))
}
