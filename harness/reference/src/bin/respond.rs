//! Prints what the separately written sheet program prints for the sheet on standard input.

use std::io::{self, Read, Write};

fn main() -> io::Result<()> {
    let mut sheet = Vec::new();
    io::stdin().read_to_end(&mut sheet)?;
    io::stdout().write_all(&reference::respond(&sheet))
}
