//! One event's own record: the sends it packs into the buffer and what it does to requests.

use super::class::Class;
use super::face::FaceNumber;
use super::history::{Happening, What};
use super::pending::{Entry, InRecord};
use std::collections::BTreeMap;

/// What is sent; the number is the tape's.
#[derive(Clone, Copy, Debug, PartialEq, Eq, PartialOrd, Ord)]
pub enum Kind {
    Interest = 1,
    Data = 2,
    Nack = 3,
}

/// One send: the packet stands in the buffer from `at`; its class is request 4's of document 02.
#[derive(Clone, Copy, Debug, PartialEq, Eq)]
pub struct Send {
    pub face: FaceNumber,
    pub kind: Kind,
    pub class: Class,
    pub at: usize,
    pub length: usize,
}

/// The sends and happenings of the event under way.
pub struct Turn<'b> {
    buffer: &'b mut [u8],
    used: usize,
    pub sends: Vec<Send>,
    pub happenings: Vec<Happening>,
}

impl<'b> Turn<'b> {
    /// A turn in which nothing has happened yet.
    pub fn new(buffer: &'b mut [u8]) -> Turn<'b> {
        Turn { buffer, used: 0, sends: Vec::new(), happenings: Vec::new() }
    }

    /// Packs one packet for one face.
    pub fn send(&mut self, face: FaceNumber, class: Class, kind: Kind, packet: &[u8]) {
        self.send_to_all(&BTreeMap::from([(face, class)]), kind, packet);
    }

    /// "Packed from the buffer's start in ascending face order; a Data is written once for all its
    /// faces", each with the class of its copy.
    pub fn send_to_all(&mut self, to: &BTreeMap<FaceNumber, Class>, kind: Kind, packet: &[u8]) {
        if to.is_empty() {
            return;
        }
        let (at, length) = (self.used, packet.len());
        self.buffer[at..at + length].copy_from_slice(packet);
        self.used += length;
        for (&face, &class) in to {
            self.sends.push(Send { face, kind, class, at, length });
        }
    }

    /// Notes what happened to the request of `face` in `entry`.
    pub fn happened(&mut self, what: What, face: FaceNumber, entry: &Entry, request: InRecord) {
        let (opening, class) = (entry.opening, entry.class);
        self.happenings.push(Happening { what, face, opening, class, request });
    }
}
