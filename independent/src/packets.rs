//! The comparison format "packets": groups of a length and a packet in, one line each out.

use crate::answer::Answer;
use crate::hex::hex;
use crate::packet::{read, Interest, Meaning};
use crate::tape_number::{read_tape_number, write_tape_number};

/// A longer input prints `too long` only.
pub const INPUT_BYTES: usize = 65_536;

/// The whole run: one line for each packet, and a last `bad OFFSET` at an unreadable group.
pub fn run(input: &[u8]) -> String {
    if input.len() > INPUT_BYTES {
        return "too long\n".to_string();
    }
    let mut text = String::new();
    let mut at = 0;
    let mut position = 0;
    while at < input.len() {
        position += 1;
        match read_group(input, at) {
            Some((packet, next)) => {
                text.push_str(&format!("{position} {}\n", answer(packet)));
                at = next;
            }
            None => {
                text.push_str(&format!("bad {at}\n"));
                at = input.len();
            }
        }
    }
    text
}

/// The packets of an input, up to the first unreadable group.
pub fn packets_of(input: &[u8]) -> Vec<&[u8]> {
    let mut packets = Vec::new();
    let mut at = 0;
    while let Some((packet, next)) = read_group(input, at) {
        packets.push(packet);
        at = next;
    }
    packets
}

/// Appends a group: the length and the packet.
pub fn write_group(packet: &[u8], out: &mut Vec<u8>) {
    write_tape_number(packet.len() as u64, out);
    out.extend_from_slice(packet);
}

/// The packet of the group at `at` and the offset past it.
fn read_group(input: &[u8], at: usize) -> Option<(&[u8], usize)> {
    let (length, packet_at) = read_tape_number(input, at)?;
    if length > (input.len() - packet_at) as u64 {
        return None;
    }
    let next = packet_at + length as usize;
    Some((&input[packet_at..next], next))
}

/// The answer, and where it is 0 the kind and fields.
fn answer(packet: &[u8]) -> String {
    match read(packet) {
        Err(refusal) => refusal.number().to_string(),
        Ok(packet) => format!("{} {}", Answer::Done.number(), meaning_fields(&packet.meaning)),
    }
}

/// The kind and its fields.
fn meaning_fields(meaning: &Meaning) -> String {
    match meaning {
        Meaning::Interest(interest) => format!("1 {}", interest_fields(interest)),
        Meaning::Data(data) => format!("2 {} {}", hex(data.name), data.freshness),
        Meaning::Nack { reason, interest } => format!("3 {reason} {}", asked_fields(interest)),
    }
}

/// Name, both flags, nonce, lifetime as it counts, and the hop limit or `-`.
fn interest_fields(interest: &Interest) -> String {
    let hop = match interest.hop_limit {
        Some(hop_limit) => hop_limit.value.to_string(),
        None => "-".to_string(),
    };
    format!("{} {} {hop}", asked_fields(interest), interest.lifetime)
}

/// Name, both flags and nonce.
fn asked_fields(interest: &Interest) -> String {
    let can_be_prefix = u8::from(interest.can_be_prefix);
    let must_be_fresh = u8::from(interest.must_be_fresh);
    format!("{} {can_be_prefix} {must_be_fresh} {}", hex(interest.name), hex(&interest.nonce))
}
