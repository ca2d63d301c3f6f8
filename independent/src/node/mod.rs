//! The node: its tables, and the step from one event to the next.

pub mod class;
pub mod dead;
pub mod face;
pub mod history;
pub mod pending;
pub mod route;
pub mod store;
pub mod turn;

mod commands;
mod data;
mod interest;
mod nack;

pub use crate::answer::Answer;
use crate::fingerprint::{fingerprint, STANDARD_START};
use crate::name::{reach, Reach};
use crate::packet::{read, Meaning};
use crate::sizes::{LATEST_TIME, LEAST_BUFFER};
use dead::DeadNonces;
use face::{FaceNumber, Faces};
use history::{Happening, What};
use pending::{Entry, InRecord, Pending};
use route::Routes;
use store::Store;
use turn::Turn;
pub use turn::{Kind, Send};

/// What reaches the node; numbers are as the tape gives them, in range or not.
#[derive(Clone, Copy, Debug, PartialEq, Eq)]
pub enum Event<'a> {
    Packet { time: u64, face: u64, bytes: &'a [u8] },
    Tick { time: u64 },
    Open { time: u64, face: u64, scope: u64, link: u64 },
    Close { time: u64, face: u64 },
    SetRoute { time: u64, class: u64, prefix: &'a [u8] },
    DropRoute { time: u64, prefix: &'a [u8] },
    AddHop { time: u64, face: u64, cost: u64, prefix: &'a [u8] },
    DropHop { time: u64, face: u64, prefix: &'a [u8] },
}

/// What an event gives: the answer, the sends, and what happened to requests.
#[derive(Clone, Debug, PartialEq, Eq)]
pub struct Outcome {
    pub answer: Answer,
    pub sends: Vec<Send>,
    pub happenings: Vec<Happening>,
}

/// One node's tables.
#[derive(Clone, Debug, PartialEq, Eq)]
pub struct Node {
    last_time: u64,
    openings: u64,
    fingerprint_start: u64,
    faces: Faces,
    routes: Routes,
    pending: Pending,
    store: Store,
    dead: DeadNonces,
}

impl Event<'_> {
    /// The event's time.
    pub fn time(&self) -> u64 {
        match *self {
            Event::Packet { time, .. }
            | Event::Tick { time }
            | Event::Open { time, .. }
            | Event::Close { time, .. }
            | Event::SetRoute { time, .. }
            | Event::DropRoute { time, .. }
            | Event::AddHop { time, .. }
            | Event::DropHop { time, .. } => time,
        }
    }

    /// The face the event names, if it names one, and whether the event opens it.
    fn face(&self) -> Option<(u64, bool)> {
        match *self {
            Event::Open { face, .. } => Some((face, true)),
            Event::Packet { face, .. }
            | Event::Close { face, .. }
            | Event::AddHop { face, .. }
            | Event::DropHop { face, .. } => Some((face, false)),
            Event::Tick { .. } | Event::SetRoute { .. } | Event::DropRoute { .. } => None,
        }
    }
}

impl Default for Node {
    /// The empty node.
    fn default() -> Node {
        Node::new()
    }
}

impl Node {
    /// An empty node: "the last accepted time of an empty node is 0".
    pub fn new() -> Node {
        Node {
            last_time: 0,
            openings: 0,
            fingerprint_start: STANDARD_START,
            faces: Faces::default(),
            routes: Routes::default(),
            pending: Pending::default(),
            store: Store::default(),
            dead: DeadNonces::default(),
        }
    }

    /// "Checks run in this order: 1, 2, 3, ageing, ..."; "answers 1 to 3 change nothing".
    pub fn step(&mut self, event: &Event, buffer: &mut [u8]) -> Outcome {
        let face = match self.enter(event, buffer.len()) {
            Ok(face) => face,
            Err(answer) => {
                return Outcome { answer, sends: Vec::new(), happenings: Vec::new() };
            }
        };
        let mut turn = Turn::new(buffer);
        self.last_time = event.time();
        self.age(&mut turn);
        let answer = self.dispatch(event, face, &mut turn);
        Outcome { answer, sends: turn.sends, happenings: turn.happenings }
    }

    /// Answers 1, 2 and 3, or the number of the face that the event names (0 if it names none).
    fn enter(&self, event: &Event, buffer_length: usize) -> Result<FaceNumber, Answer> {
        if event.time() < self.last_time || event.time() > LATEST_TIME {
            return Err(Answer::Clock);
        }
        if buffer_length < LEAST_BUFFER {
            return Err(Answer::SmallBuffer);
        }
        let Some((number, opens)) = event.face() else {
            return Ok(0);
        };
        let face = Faces::number(number).ok_or(Answer::BadFace)?;
        if opens || self.faces.get(face).is_some() {
            Ok(face)
        } else {
            Err(Answer::BadFace)
        }
    }

    /// What follows ageing, by the kind of event.
    fn dispatch(&mut self, event: &Event, face: FaceNumber, turn: &mut Turn) -> Answer {
        match *event {
            Event::Packet { bytes, .. } => self.on_packet(face, bytes, turn),
            Event::Tick { .. } => Answer::Done,
            Event::Open { scope, link, .. } => self.on_open(face, scope, link),
            Event::Close { .. } => self.on_close(face, turn),
            Event::SetRoute { class, prefix, .. } => self.on_set_route(class, prefix),
            Event::DropRoute { prefix, .. } => self.on_drop_route(prefix),
            Event::AddHop { cost, prefix, .. } => self.on_add_hop(face, cost, prefix),
            Event::DropHop { prefix, .. } => self.on_drop_hop(face, prefix),
        }
    }

    /// A packet: 4, 5 or 6 by the reader, then by what it is.
    fn on_packet(&mut self, face: FaceNumber, bytes: &[u8], turn: &mut Turn) -> Answer {
        let packet = match read(bytes) {
            Ok(packet) => packet,
            Err(refusal) => return refusal.into(),
        };
        match packet.meaning {
            Meaning::Interest(interest) => self.on_interest(face, &packet, &interest, turn),
            Meaning::Data(data) => self.on_data(face, &packet, &data, turn),
            Meaning::Nack { reason, interest } => self.on_nack(face, reason, &interest, turn),
        }
    }

    /// "A request lives while time < arrival + lifetime; the rest end as expired."
    fn age(&mut self, turn: &mut Turn) {
        let now = self.last_time;
        for entry in &mut self.pending.entries {
            let over = entry.ins.iter().filter(|(_, request)| now >= request.expiry);
            let over: Vec<(FaceNumber, InRecord)> = over.map(|(&face, &r)| (face, r)).collect();
            for (face, request) in over {
                entry.ins.remove(&face);
                turn.happened(What::Expired, face, entry, request);
            }
        }
        self.dismiss_entries_without_requests();
    }

    /// "An entry without requests leaves. Entries leave oldest opening first."
    fn dismiss_entries_without_requests(&mut self) {
        for entry in self.pending.take(|entry| entry.ins.is_empty()) {
            self.bury(&entry);
        }
    }

    /// "The fingerprint of its name with each out-record's nonce, by face, joins the dead nonce
    /// list with the time now."
    fn bury(&mut self, entry: &Entry) {
        for record in entry.outs.values() {
            let line = fingerprint(self.fingerprint_start, &entry.name, &record.nonce);
            self.dead.join(line, self.last_time);
        }
    }

    /// SCOPE: "Interest, Data or Nack under /localhost from a non-local face".
    fn is_out_of_scope(&self, face: FaceNumber, name: &[u8]) -> bool {
        reach(name) == Reach::Localhost && !self.faces.is_local(face)
    }

    /// The time of the last event answered other than 1 to 3.
    pub fn last_time(&self) -> u64 {
        self.last_time
    }

    /// The pending entries, oldest opening first.
    pub fn pending(&self) -> &Pending {
        &self.pending
    }

    /// The routes.
    pub fn routes(&self) -> &Routes {
        &self.routes
    }

    /// The stored Data.
    pub fn store(&self) -> &Store {
        &self.store
    }

    /// The dead nonce list.
    pub fn dead(&self) -> &DeadNonces {
        &self.dead
    }

    /// The faces.
    pub fn faces(&self) -> &Faces {
        &self.faces
    }
}
