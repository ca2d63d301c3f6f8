//! A node on the bench: events in short form, answers and sends as numbers.

use independent::build::{data, name, Request};
use independent::node::history::Tally;
use independent::node::{Event, Node, Outcome};
use independent::packet::{read, Meaning};
use independent::sizes::LEAST_BUFFER;

pub const LOCAL: u64 = 0;
pub const FAR: u64 = 1;
pub const P2P: u64 = 0;
pub const MULTI: u64 = 1;
pub const ADHOC: u64 = 2;

/// An answer number, and face and kind of each send.
pub type Short = (u8, Vec<(usize, u8)>);

/// A node, its buffer, and the counts of its history.
pub struct Bench {
    pub node: Node,
    pub buffer: Vec<u8>,
    pub tally: Tally,
    pub last: Option<Outcome>,
}

impl Bench {
    /// An empty node.
    pub fn new() -> Bench {
        Bench {
            node: Node::new(),
            buffer: vec![0xEE; LEAST_BUFFER],
            tally: Tally::default(),
            last: None,
        }
    }

    /// Far point-to-point faces 1 to `count`, and a route of class 1 for every name, with a hop to
    /// the last.
    pub fn plain(count: u64) -> Bench {
        let mut bench = Bench::new();
        for face in 1..=count {
            assert_eq!(bench.open(0, face, FAR, P2P), 0);
        }
        assert_eq!(bench.route(0, 1, ""), 0);
        assert_eq!(bench.hop(0, count, 10, ""), 0);
        bench
    }

    /// Any event.
    pub fn put(&mut self, event: Event) -> Short {
        let outcome = self.node.step(&event, &mut self.buffer);
        self.tally.add_all(&outcome.happenings);
        let sends = outcome.sends.iter().map(|send| (send.face, send.kind as u8)).collect();
        let short = (outcome.answer.number(), sends);
        self.last = Some(outcome);
        short
    }

    /// A clock reading.
    pub fn tick(&mut self, time: u64) -> u8 {
        self.put(Event::Tick { time }).0
    }

    /// Opens a face.
    pub fn open(&mut self, time: u64, face: u64, scope: u64, link: u64) -> u8 {
        self.put(Event::Open { time, face, scope, link }).0
    }

    /// Closes a face.
    pub fn close(&mut self, time: u64, face: u64) -> u8 {
        self.put(Event::Close { time, face }).0
    }

    /// Sets a route.
    pub fn route(&mut self, time: u64, class: u64, prefix: &str) -> u8 {
        self.put(Event::SetRoute { time, class, prefix: &name(prefix) }).0
    }

    /// Drops a route.
    pub fn drop_route(&mut self, time: u64, prefix: &str) -> u8 {
        self.put(Event::DropRoute { time, prefix: &name(prefix) }).0
    }

    /// Adds a hop.
    pub fn hop(&mut self, time: u64, face: u64, cost: u64, prefix: &str) -> u8 {
        self.put(Event::AddHop { time, face, cost, prefix: &name(prefix) }).0
    }

    /// Drops a hop.
    pub fn drop_hop(&mut self, time: u64, face: u64, prefix: &str) -> u8 {
        self.put(Event::DropHop { time, face, prefix: &name(prefix) }).0
    }

    /// A packet of any bytes.
    pub fn packet(&mut self, time: u64, face: u64, bytes: &[u8]) -> Short {
        self.put(Event::Packet { time, face, bytes })
    }

    /// An Interest.
    pub fn ask(&mut self, time: u64, face: u64, request: &Request) -> Short {
        self.packet(time, face, &request.interest())
    }

    /// A Data without freshness.
    pub fn data(&mut self, time: u64, face: u64, text: &str) -> Short {
        self.fresh(time, face, text, None)
    }

    /// A Data with a freshness.
    pub fn fresh(&mut self, time: u64, face: u64, text: &str, freshness: Option<u64>) -> Short {
        self.packet(time, face, &data(&name(text), freshness, 0))
    }

    /// A Nack.
    pub fn nack(&mut self, time: u64, face: u64, reason: u64, request: &Request) -> Short {
        self.packet(time, face, &request.nack(reason))
    }

    /// The bytes of the last event's n-th send.
    pub fn sent(&self, n: usize) -> &[u8] {
        let send = self.last.as_ref().unwrap().sends[n];
        &self.buffer[send.at..send.at + send.length]
    }

    /// Face, kind and class of the last event's sends.
    pub fn classes(&self) -> Vec<(usize, u8, u8)> {
        let sends = &self.last.as_ref().unwrap().sends;
        sends.iter().map(|send| (send.face, send.kind as u8, send.class as u8)).collect()
    }

    /// Opened, answered, Nacked, expired, closed, self-met and open now, of one face.
    pub fn counts(&self, face: usize) -> [u64; 7] {
        let of = self.tally.of(face);
        let open = self.node.pending().open_requests(face);
        [of.opened, of.answered, of.nacked, of.expired, of.closed, of.self_met, open]
    }
}

/// A request by name and nonce.
pub fn req(text: &str, nonce: u64) -> Request {
    Request::new(&name(text), nonce)
}

/// A request with a lifetime.
pub fn lasting(text: &str, nonce: u64, lifetime: u64) -> Request {
    Request { lifetime: Some(lifetime), ..req(text, nonce) }
}

/// A request with a HopLimit.
pub fn hopping(text: &str, nonce: u64, hop_limit: u8) -> Request {
    Request { hop_limit: Some(hop_limit), ..req(text, nonce) }
}

/// A request with CanBePrefix.
pub fn prefix(text: &str, nonce: u64) -> Request {
    Request { can_be_prefix: true, ..req(text, nonce) }
}

/// A request with MustBeFresh.
pub fn fresh(text: &str, nonce: u64) -> Request {
    Request { must_be_fresh: true, ..req(text, nonce) }
}

/// The answer with no sends.
pub fn quiet(answer: u8) -> Short {
    (answer, Vec::new())
}

/// Answer 0 and an Interest to a face.
pub fn asks(face: usize) -> Short {
    (0, vec![(face, 1)])
}

/// Answer 0 and a Data to some faces.
pub fn gives(faces: &[usize]) -> Short {
    (0, faces.iter().map(|&face| (face, 2)).collect())
}

/// A refusal with its Nack to a face.
pub fn refuses(answer: u8, face: usize) -> Short {
    (answer, vec![(face, 3)])
}

/// The reason and nonce of a Nack that was sent.
pub fn nack_sent(bytes: &[u8]) -> (u64, [u8; 4]) {
    match read(bytes).unwrap().meaning {
        Meaning::Nack { reason, interest } => (reason, interest.nonce),
        _ => panic!("not a Nack"),
    }
}

/// The hop limit and nonce of an Interest that was sent.
pub fn interest_sent(bytes: &[u8]) -> (Option<u8>, [u8; 4]) {
    match read(bytes).unwrap().meaning {
        Meaning::Interest(interest) => {
            (interest.hop_limit.map(|hop_limit| hop_limit.value), interest.nonce)
        }
        _ => panic!("not an Interest"),
    }
}
