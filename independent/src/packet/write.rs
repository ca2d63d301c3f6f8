//! What the node writes: the Nack, and the Interest and Data as they leave.

use super::read::{Interest, Packet};
use crate::build::{interest_tree, nack_tree};
use crate::tlv::write_whole_number;

/// What a Nack's Interest keeps: "Name, the two flags and Nonce only".
#[derive(Clone, Copy, Debug, PartialEq, Eq)]
pub struct Asked<'a> {
    pub name: &'a [u8],
    pub can_be_prefix: bool,
    pub must_be_fresh: bool,
    pub nonce: [u8; 4],
}

impl<'a> From<&Interest<'a>> for Asked<'a> {
    /// The part of an Interest that its Nack carries.
    fn from(interest: &Interest<'a>) -> Asked<'a> {
        Asked {
            name: interest.name,
            can_be_prefix: interest.can_be_prefix,
            must_be_fresh: interest.must_be_fresh,
            nonce: interest.nonce,
        }
    }
}

/// "LpPacket with Nack, NackReason (left out for reason 0), and an Interest of Name, the two flags
/// and Nonce only."
pub fn write_nack(reason: u64, asked: &Asked) -> Vec<u8> {
    let number = write_whole_number(reason);
    let written = (reason != 0).then_some(&number[..]);
    nack_tree(written, interest_tree(asked, Vec::new())).encode()
}

/// "The Interest leaves as it came without its Lp header, HopLimit one lower" (never below 0).
pub fn interest_as_it_leaves(packet: &Packet, interest: &Interest) -> Vec<u8> {
    let mut out = packet.bare.to_vec();
    if let Some(hop_limit) = interest.hop_limit {
        out[hop_limit.at] = hop_limit.value.saturating_sub(1);
    }
    out
}

/// "Data leaves without its Lp header."
pub fn data_as_it_leaves<'a>(packet: &Packet<'a>) -> &'a [u8] {
    packet.bare
}
