//! `tape-gen MODE SEED` writes one tape of at most 16,384 bytes.

use independent::tape_gen::{generate, MODES};
use std::env;
use std::io::{self, Write};
use std::process::ExitCode;

/// The generated tape to standard output.
fn main() -> ExitCode {
    let words: Vec<String> = env::args().collect();
    let mode = words.get(1).map(String::as_str).unwrap_or("");
    let seed = words.get(2).and_then(|word| word.parse().ok());
    let Some(tape) = seed.and_then(|seed| generate(mode, seed)) else {
        eprintln!("tape-gen MODE SEED\nmodes: {}", MODES.join(" "));
        return ExitCode::FAILURE;
    };
    match io::stdout().write_all(&tape) {
        Ok(()) => ExitCode::SUCCESS,
        Err(_) => ExitCode::FAILURE,
    }
}
