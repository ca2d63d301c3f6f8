//! `tapefacts` reads a tape from standard input and prints every fact of its run.

use std::io::{self, Read, Write};

/// Standard input to standard output.
fn main() -> io::Result<()> {
    let mut tape = Vec::new();
    io::stdin().read_to_end(&mut tape)?;
    io::stdout().write_all(independent::facts::run(&tape).as_bytes())
}
