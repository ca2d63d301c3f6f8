//! `packet-gen SEED` writes one "packets" input of at most 65,536 bytes.

use std::env;
use std::io::{self, Write};
use std::process::ExitCode;

/// The generated input to standard output.
fn main() -> ExitCode {
    let seed = env::args().nth(1).and_then(|word| word.parse().ok());
    let Some(seed) = seed else {
        eprintln!("packet-gen SEED");
        return ExitCode::FAILURE;
    };
    match io::stdout().write_all(&independent::packet_gen::generate(seed)) {
        Ok(()) => ExitCode::SUCCESS,
        Err(_) => ExitCode::FAILURE,
    }
}
