//! The dead nonce list.

use crate::sizes::DEAD_NONCES;
use std::collections::VecDeque;

/// "A line counts while now minus its time is under 6,000."
const COUNTS_FOR: u64 = 6_000;

/// One line: a fingerprint and the time it joined.
#[derive(Clone, Copy, Debug, PartialEq, Eq)]
pub struct Line {
    pub fingerprint: u64,
    pub time: u64,
}

/// The lines, oldest first; one that no longer counts stays until it is overwritten.
#[derive(Clone, Debug, PartialEq, Eq, Default)]
pub struct DeadNonces {
    lines: VecDeque<Line>,
}

impl DeadNonces {
    /// A fingerprint "joins the dead nonce list with the time now; the 257th overwrites the
    /// oldest".
    pub fn join(&mut self, fingerprint: u64, time: u64) {
        if self.lines.len() == DEAD_NONCES {
            self.lines.pop_front();
        }
        self.lines.push_back(Line { fingerprint, time });
    }

    /// Whether "a live fingerprint equals this one".
    pub fn has_live(&self, fingerprint: u64, now: u64) -> bool {
        self.lines.iter().any(|line| {
            line.fingerprint == fingerprint && now.saturating_sub(line.time) < COUNTS_FOR
        })
    }

    /// The lines, oldest first, whether they still count or not.
    pub fn lines(&self) -> &VecDeque<Line> {
        &self.lines
    }
}
