//! What happens to requests, event by event, and its count per face.

use super::class::Class;
use super::face::FaceNumber;
use super::pending::InRecord;
use crate::sizes::FACES;

/// What happened to one request; the number is its place in `tapeout`'s total.
#[derive(Clone, Copy, Debug, PartialEq, Eq, PartialOrd, Ord)]
pub enum What {
    Opened = 1,
    Answered = 2,
    Nacked = 3,
    Expired = 4,
    Closed = 5,
    SelfMet = 6,
}

/// One happening: the request is the one of `face` in the entry made by that opening, as it stood.
#[derive(Clone, Copy, Debug, PartialEq, Eq)]
pub struct Happening {
    pub what: What,
    pub face: FaceNumber,
    pub opening: u64,
    pub class: Class,
    pub request: InRecord,
}

/// Requests counted by what happened to them.
#[derive(Clone, Copy, Debug, PartialEq, Eq, Default)]
pub struct Counts {
    pub opened: u64,
    pub answered: u64,
    pub nacked: u64,
    pub expired: u64,
    pub closed: u64,
    pub self_met: u64,
}

impl Counts {
    /// Counts one happening.
    pub fn add(&mut self, what: What) {
        match what {
            What::Opened => self.opened += 1,
            What::Answered => self.answered += 1,
            What::Nacked => self.nacked += 1,
            What::Expired => self.expired += 1,
            What::Closed => self.closed += 1,
            What::SelfMet => self.self_met += 1,
        }
    }

    /// All requests that have ended.
    pub fn ended(&self) -> u64 {
        self.answered + self.nacked + self.expired + self.closed + self.self_met
    }
}

/// The counts of every face, made from the history.
#[derive(Clone, Debug, PartialEq, Eq, Default)]
pub struct Tally {
    by_face: [Counts; FACES],
}

impl Tally {
    /// Counts the happenings of one event.
    pub fn add_all(&mut self, happenings: &[Happening]) {
        for happening in happenings {
            self.by_face[happening.face - 1].add(happening.what);
        }
    }

    /// The counts of one face.
    pub fn of(&self, face: FaceNumber) -> Counts {
        self.by_face[face - 1]
    }

    /// The sum over all faces.
    pub fn total(&self) -> Counts {
        let mut total = Counts::default();
        for counts in &self.by_face {
            total.opened += counts.opened;
            total.answered += counts.answered;
            total.nacked += counts.nacked;
            total.expired += counts.expired;
            total.closed += counts.closed;
            total.self_met += counts.self_met;
        }
        total
    }
}
