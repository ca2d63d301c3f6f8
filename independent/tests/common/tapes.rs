//! Tapes that several tests run: document 01's sample, one put together from events, and every
//! mode's.

use super::{hex, I};
use independent::node::Event;
use independent::tape::write_event;
use independent::tape_gen::{generate, MODES};
use std::sync::OnceLock;

/// How many seeds of each mode the checks run over.
pub const SEEDS: u64 = 12;

/// Document 01's sample tape.
pub fn sample() -> Vec<u8> {
    let head = "03 00 01 01 00  03 00 02 01 00  05 00 01 03 08 01 61  07 00 02 0A 03 08 01 61";
    hex(&format!("{head}  01 64 01 0D {I}  02 84 20"))
}

/// A tape of these events.
pub fn tape_of(events: &[Event]) -> Vec<u8> {
    let mut tape = Vec::new();
    for event in events {
        write_event(event, &mut tape);
    }
    tape
}

/// Every mode's tapes, generated once for all checks of a test program.
pub fn all_tapes() -> &'static [Vec<u8>] {
    static TAPES: OnceLock<Vec<Vec<u8>>> = OnceLock::new();
    TAPES.get_or_init(|| {
        let of_mode = |mode| (0..SEEDS).map(move |seed| generate(mode, seed).unwrap());
        MODES.into_iter().flat_map(of_mode).collect()
    })
}
