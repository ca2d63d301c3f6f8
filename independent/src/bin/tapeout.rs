//! `tapeout` reads a tape from standard input and prints what an empty node makes of it.

use std::io::{self, Read, Write};

/// Standard input to standard output.
fn main() -> io::Result<()> {
    let mut tape = Vec::new();
    io::stdin().read_to_end(&mut tape)?;
    io::stdout().write_all(independent::tape::run(&tape).as_bytes())
}
