//! Writes the "ground" input, the same at every run.

use std::io::{self, Write};

/// The generated input to standard output.
fn main() -> io::Result<()> {
    io::stdout().write_all(&independent::ground_gen::generate())
}
