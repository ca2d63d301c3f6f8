//! Reads a "packets" input from standard input and writes its lines.

use std::io::{self, Read, Write};

/// Standard input to standard output.
fn main() -> io::Result<()> {
    let mut input = Vec::new();
    io::stdin().read_to_end(&mut input)?;
    io::stdout().write_all(independent::packets::run(&input).as_bytes())
}
