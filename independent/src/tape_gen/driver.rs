//! Writes a tape event by event, while a node of its own runs along to show what is pending.

use crate::build::{data, in_lp, Request};
use crate::node::{Event, Kind, Node, Outcome};
use crate::packet::{read, Meaning};
use crate::prng::Prng;
use crate::sizes::{LEAST_BUFFER, TAPE_BYTES};
use crate::tape::write_event;

/// Room kept for a last event that cannot be read.
const LAST_EVENT: usize = 16;

/// The tape so far, and what the generator knows of the node.
pub struct Driver {
    tape: Vec<u8>,
    buffer: Vec<u8>,
    pub node: Node,
    pub time: u64,
    pub prng: Prng,
    pub full: bool,
    /// Interests that were sent on, with the face they left by.
    pub sent: Vec<(u64, Request)>,
    /// Requests that were put on the tape, with the face they came by.
    pub seen: Vec<(u64, Request)>,
    /// Times at which something changes: freshness over, dead lines over.
    pub changes: Vec<u64>,
}

impl Driver {
    /// An empty tape.
    pub fn new(seed: u64) -> Driver {
        Driver {
            tape: Vec::new(),
            buffer: vec![0; LEAST_BUFFER],
            node: Node::new(),
            time: 0,
            prng: Prng::new(seed),
            full: false,
            sent: Vec::new(),
            seen: Vec::new(),
            changes: Vec::new(),
        }
    }

    /// The finished tape; now and then its last event cannot be read.
    pub fn finish(mut self) -> Vec<u8> {
        let last: &[u8] = match self.prng.below(10) {
            0 => &[9, 0],
            1 => &[0],
            2 => &[1, 0x80, 0x00, 1, 0],
            3 => &[1, 0xFF, 0xFF, 0xFF, 0xFF, 0xFF, 0xFF, 0xFF, 0xFF, 0xFF, 2],
            4 => &[7, 0xFF, 0xFF, 0xFF, 0xFF, 0xFF, 0xFF, 0xFF, 0x7F, 1, 1, 9, 8],
            _ => &[],
        };
        self.tape.extend_from_slice(last);
        self.tape
    }

    /// Puts an event on the tape, if it still fits, and runs it.
    pub fn put(&mut self, event: Event) -> Option<Outcome> {
        let mut bytes = Vec::new();
        write_event(&event, &mut bytes);
        if self.tape.len() + bytes.len() + LAST_EVENT > TAPE_BYTES {
            self.full = true;
            return None;
        }
        self.tape.extend_from_slice(&bytes);
        let outcome = self.node.step(&event, &mut self.buffer);
        self.remember(&outcome);
        Some(outcome)
    }

    /// Keeps what was sent on, and when dead lines made now are over.
    fn remember(&mut self, outcome: &Outcome) {
        for send in outcome.sends.iter().filter(|send| send.kind == Kind::Interest) {
            let bytes = &self.buffer[send.at..send.at + send.length];
            if let Ok(Meaning::Interest(interest)) = read(bytes).map(|packet| packet.meaning) {
                self.sent.push((send.face as u64, Request::from(&interest)));
            }
        }
        if !outcome.happenings.is_empty() {
            self.changes.push(self.time + 6_000);
        }
    }

    /// What the node has sent on and still waits for, with the faces it was sent to.
    pub fn waiting(&self) -> Vec<(u64, Request)> {
        let mut waiting = Vec::new();
        for entry in &self.node.pending().entries {
            for (&face, record) in &entry.outs {
                let mut request = Request::new(&entry.name, 0);
                request.can_be_prefix = entry.can_be_prefix;
                request.must_be_fresh = entry.must_be_fresh;
                request.nonce = record.nonce;
                waiting.push((face as u64, request));
            }
        }
        waiting
    }

    /// Lets time pass before the next event.
    pub fn wait(&mut self, milliseconds: u64) {
        self.time += milliseconds;
    }

    /// A clock reading.
    pub fn tick(&mut self) {
        self.put(Event::Tick { time: self.time });
    }

    /// Opens a face.
    pub fn open(&mut self, face: u64, scope: u64, link: u64) {
        self.put(Event::Open { time: self.time, face, scope, link });
    }

    /// Closes a face.
    pub fn close(&mut self, face: u64) {
        self.put(Event::Close { time: self.time, face });
    }

    /// Sets a route.
    pub fn route(&mut self, class: u64, prefix: &[u8]) {
        self.put(Event::SetRoute { time: self.time, class, prefix });
    }

    /// Drops a route.
    pub fn drop_route(&mut self, prefix: &[u8]) {
        self.put(Event::DropRoute { time: self.time, prefix });
    }

    /// Adds a hop.
    pub fn hop(&mut self, face: u64, cost: u64, prefix: &[u8]) {
        self.put(Event::AddHop { time: self.time, face, cost, prefix });
    }

    /// Drops a hop.
    pub fn drop_hop(&mut self, face: u64, prefix: &[u8]) {
        self.put(Event::DropHop { time: self.time, face, prefix });
    }

    /// A packet of any bytes.
    pub fn packet(&mut self, face: u64, bytes: &[u8]) {
        self.put(Event::Packet { time: self.time, face, bytes });
    }

    /// An Interest, now and then in an LpPacket.
    pub fn ask(&mut self, face: u64, request: &Request) {
        self.seen.push((face, request.clone()));
        let bare = request.interest();
        let bytes = if self.prng.one_in(10) { in_lp(&bare) } else { bare };
        self.packet(face, &bytes);
    }

    /// A Data, now and then in an LpPacket or a long one.
    pub fn data(&mut self, face: u64, name: &[u8], freshness: Option<u64>) {
        let content = if self.prng.one_in(80) { 1_000 } else { self.prng.below(3) };
        let bare = data(name, freshness, content);
        let bytes = if self.prng.one_in(10) { in_lp(&bare) } else { bare };
        self.changes.push(self.time.saturating_add(freshness.unwrap_or(0)));
        self.packet(face, &bytes);
    }

    /// A Nack.
    pub fn nack(&mut self, face: u64, reason: u64, request: &Request) {
        self.packet(face, &request.nack(reason));
    }
}
