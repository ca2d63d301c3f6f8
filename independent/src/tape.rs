//! Tapes: events in bytes, and the run of a tape through an empty node.

use crate::node::history::Tally;
use crate::node::{Event, Node, Outcome};
use crate::sizes::{FACES, LEAST_BUFFER, TAPE_BYTES};
use crate::tape_number::{read_tape_number, write_tape_number};

/// Reads fields of an event one after the other.
struct Fields<'a> {
    tape: &'a [u8],
    at: usize,
}

impl<'a> Fields<'a> {
    /// The next number.
    fn number(&mut self) -> Option<u64> {
        let (value, next) = read_tape_number(self.tape, self.at)?;
        self.at = next;
        Some(value)
    }

    /// The next length and so many bytes.
    fn bytes(&mut self) -> Option<&'a [u8]> {
        let length = self.number()?;
        if length > (self.tape.len() - self.at) as u64 {
            return None;
        }
        let start = self.at;
        self.at += length as usize;
        Some(&self.tape[start..self.at])
    }
}

/// The event at an offset and the offset past it, or nothing if it is unreadable.
pub fn read_event(tape: &[u8], at: usize) -> Option<(Event<'_>, usize)> {
    let mut fields = Fields { tape, at };
    let kind = fields.number()?;
    if !(1..=8).contains(&kind) {
        return None;
    }
    let time = fields.number()?;
    let event = match kind {
        1 => Event::Packet { time, face: fields.number()?, bytes: fields.bytes()? },
        2 => Event::Tick { time },
        3 => {
            let face = fields.number()?;
            Event::Open { time, face, scope: fields.number()?, link: fields.number()? }
        }
        4 => Event::Close { time, face: fields.number()? },
        5 => Event::SetRoute { time, class: fields.number()?, prefix: fields.bytes()? },
        6 => Event::DropRoute { time, prefix: fields.bytes()? },
        7 => {
            let face = fields.number()?;
            Event::AddHop { time, face, cost: fields.number()?, prefix: fields.bytes()? }
        }
        _ => Event::DropHop { time, face: fields.number()?, prefix: fields.bytes()? },
    };
    Some((event, fields.at))
}

/// Appends an event as a tape holds it.
pub fn write_event(event: &Event, out: &mut Vec<u8>) {
    let (kind, numbers, bytes): (u64, Vec<u64>, Option<&[u8]>) = match *event {
        Event::Packet { time, face, bytes } => (1, vec![time, face], Some(bytes)),
        Event::Tick { time } => (2, vec![time], None),
        Event::Open { time, face, scope, link } => (3, vec![time, face, scope, link], None),
        Event::Close { time, face } => (4, vec![time, face], None),
        Event::SetRoute { time, class, prefix } => (5, vec![time, class], Some(prefix)),
        Event::DropRoute { time, prefix } => (6, vec![time], Some(prefix)),
        Event::AddHop { time, face, cost, prefix } => (7, vec![time, face, cost], Some(prefix)),
        Event::DropHop { time, face, prefix } => (8, vec![time, face], Some(prefix)),
    };
    write_tape_number(kind, out);
    for number in numbers {
        write_tape_number(number, out);
    }
    if let Some(bytes) = bytes {
        write_tape_number(bytes.len() as u64, out);
        out.extend_from_slice(bytes);
    }
}

/// The offset of an unreadable event, at which a run ends.
#[derive(Clone, Copy, Debug, PartialEq, Eq)]
pub struct Unreadable {
    pub offset: usize,
}

/// Reads a tape's events up to its end or to the first that is unreadable.
pub fn events(tape: &[u8]) -> (Vec<Event<'_>>, Option<Unreadable>) {
    let mut events = Vec::new();
    let mut at = 0;
    while at < tape.len() {
        match read_event(tape, at) {
            Some((event, next)) => {
                events.push(event);
                at = next;
            }
            None => return (events, Some(Unreadable { offset: at })),
        }
    }
    (events, None)
}

/// "A longer tape prints `too long` only."
pub const TOO_LONG: &str = "too long\n";

/// How a run ended: the node as it stands, and the event that could not be read.
pub struct End {
    pub node: Node,
    unreadable: Option<Unreadable>,
}

impl End {
    /// "An unreadable event prints `bad` and the offset of its first byte": that line, or nothing.
    pub fn bad_line(&self) -> String {
        self.unreadable.map_or(String::new(), |unreadable| format!("bad {}\n", unreadable.offset))
    }
}

/// Runs a tape through an empty node and shows each outcome with the buffer; no run of a tape that
/// is too long.
pub fn play(tape: &[u8], mut show: impl FnMut(&Outcome, &[u8])) -> Option<End> {
    if tape.len() > TAPE_BYTES {
        return None;
    }
    let mut node = Node::new();
    let mut buffer = vec![0; LEAST_BUFFER];
    let (events, unreadable) = events(tape);
    for event in &events {
        let outcome = node.step(event, &mut buffer);
        show(&outcome, &buffer);
    }
    Some(End { node, unreadable })
}

/// What `tapeout` prints for a tape.
pub fn run(tape: &[u8]) -> String {
    let mut text = String::new();
    let mut position = 0;
    let mut tally = Tally::default();
    let end = play(tape, |outcome, _| {
        position += 1;
        tally.add_all(&outcome.happenings);
        text.push_str(&outcome_lines(position, outcome));
    });
    match end {
        Some(end) => text + &end.bad_line() + &total_line(&tally, &end.node),
        None => TOO_LONG.to_string(),
    }
}

/// "Per event it prints position from 1, answer, number of sends; per send `>` face, kind, length."
fn outcome_lines(position: usize, outcome: &Outcome) -> String {
    let mut text = format!("{position} {} {}\n", outcome.answer.number(), outcome.sends.len());
    for send in &outcome.sends {
        text.push_str(&format!("> {} {} {}\n", send.face, send.kind as u8, send.length));
    }
    text
}

/// "The last line is `total` opened, answered, Nacked, expired, closed, self-met, open."
fn total_line(tally: &Tally, node: &Node) -> String {
    let total = tally.total();
    let open: u64 = (1..=FACES).map(|face| node.pending().open_requests(face)).sum();
    format!(
        "total {} {} {} {} {} {} {open}\n",
        total.opened, total.answered, total.nacked, total.expired, total.closed, total.self_met
    )
}
