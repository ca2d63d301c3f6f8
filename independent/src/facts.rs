//! Every fact of a tape's run, one line each: what the events did, and the tables at the end.

use crate::hex::hex;
use crate::node::face::Faces;
use crate::node::history::Happening;
use crate::node::pending::{Entry, InRecord, Nonce};
use crate::node::route::Route;
use crate::node::store::Stored;
use crate::node::{Node, Outcome, Send};
use crate::sizes::FACES;
use crate::tape::{play, TOO_LONG};

/// What `tapefacts` prints for a tape.
pub fn run(tape: &[u8]) -> String {
    let mut text = String::new();
    let end = play(tape, |outcome, buffer| text.push_str(&event_lines(outcome, buffer)));
    match end {
        Some(end) => text + &end.bad_line() + &table_lines(&end.node),
        None => TOO_LONG.to_string(),
    }
}

/// `event ANSWER`, then the sends by face, then what happened to requests in its order.
fn event_lines(outcome: &Outcome, buffer: &[u8]) -> String {
    let mut text = format!("event {}\n", outcome.answer.number());
    text.extend(outcome.sends.iter().map(|send| send_line(send, buffer)));
    text.extend(outcome.happenings.iter().map(fate_line));
    text
}

/// `send FACE KIND CLASS HEX`.
fn send_line(send: &Send, buffer: &[u8]) -> String {
    let bytes = hex(&buffer[send.at..send.at + send.length]);
    format!("send {} {} {} {bytes}\n", send.face, send.kind as u8, send.class as u8)
}

/// `fate FACE CLASS FATE NONCE EXPIRY`.
fn fate_line(happening: &Happening) -> String {
    let (face, class, fate) = (happening.face, happening.class as u8, happening.what as u8);
    format!("fate {face} {class} {fate} {}\n", request_fields(&happening.request))
}

/// `NONCE EXPIRY` of a request.
fn request_fields(request: &InRecord) -> String {
    format!("{} {}", nonce_number(request.nonce), request.expiry)
}

/// A nonce as a number, its first byte most significant.
fn nonce_number(nonce: Nonce) -> u32 {
    u32::from_be_bytes(nonce)
}

/// The last accepted time and all tables, each in its order.
fn table_lines(node: &Node) -> String {
    let mut text = format!("time {}\n", node.last_time());
    text.push_str(&face_lines(node.faces()));
    text.extend(node.routes().as_set().iter().map(route_lines));
    text.extend(node.pending().entries.iter().map(entry_lines));
    text.extend(node.store().by_use().iter().map(stored_line));
    let dead = node.dead().lines().iter();
    text.extend(dead.map(|line| format!("dead {} {}\n", line.fingerprint, line.time)));
    text
}

/// `face F SCOPE LINK` for each open face, ascending.
fn face_lines(faces: &Faces) -> String {
    let open = (1..=FACES).filter_map(|number| Some((number, faces.get(number)?)));
    open.map(|(number, face)| format!("face {number} {} {}\n", face.scope(), face.link as u8))
        .collect()
}

/// `route CLASS HEXPREFIX`, then `hop FACE COST` for each of its hops, ascending.
fn route_lines(route: &Route) -> String {
    let mut text = format!("route {} {}\n", route.class as u8, hex(&route.prefix));
    text.extend(route.hops.iter().map(|(face, cost)| format!("hop {face} {cost}\n")));
    text
}

/// `entry CLASS CANBEPREFIX MUSTBEFRESH HEXNAME`, then its requests and its out-records by face.
fn entry_lines(entry: &Entry) -> String {
    let can_be_prefix = u8::from(entry.can_be_prefix);
    let must_be_fresh = u8::from(entry.must_be_fresh);
    let (class, name) = (entry.class as u8, hex(&entry.name));
    let mut text = format!("entry {class} {can_be_prefix} {must_be_fresh} {name}\n");
    for (face, request) in &entry.ins {
        text.push_str(&format!("in {face} {}\n", request_fields(request)));
    }
    for (face, record) in &entry.outs {
        let nonce = nonce_number(record.nonce);
        let nacked = record.nacked.map_or("-".to_string(), |reason| reason.to_string());
        text.push_str(&format!("out {face} {nonce} {} {nacked}\n", record.sent));
    }
    text
}

/// `stored TIME FRESHNESS HEXNAME HEXBYTES`.
fn stored_line(stored: &Stored) -> String {
    let (name, bytes) = (hex(&stored.name), hex(&stored.bytes));
    format!("stored {} {} {name} {bytes}\n", stored.stored_at, stored.freshness)
}
