//! Builders of names and packets, each in this one place: the node's Nack, what the generators put
//! on tapes and what the tests send are made of them.

use crate::name::GENERIC;
use crate::packet::table as t;
use crate::packet::{write_nack, Asked, Interest};
use crate::tlv::{elements, write_element, write_number, write_whole_number, Broken};
use crate::tree::{branch, leaf, Tree};

/// An Lp element that is skipped: a CongestionMark.
const SKIPPED_IN_LP: u64 = 0x0340;
/// What a Data's Content is filled with.
const FILLING: u8 = 0x55;

/// A number in its shortest form.
pub fn number(value: u64) -> Vec<u8> {
    let mut out = Vec::new();
    write_number(value, &mut out);
    out
}

/// An element's bytes; its type may be one that no reader takes.
pub fn element(kind: u64, value: &[u8]) -> Vec<u8> {
    let mut out = Vec::new();
    write_element(kind, value, &mut out);
    out
}

/// An ordinary component.
pub fn component(value: &[u8]) -> Vec<u8> {
    element(GENERIC, value)
}

/// A name of ordinary components, from text with `/` before each.
pub fn name(text: &str) -> Vec<u8> {
    text.split('/').skip(1).flat_map(|part| component(part.as_bytes())).collect()
}

/// A name of two components that has so many bytes, from 204 on.
pub fn name_of_bytes(count: usize) -> Vec<u8> {
    [component(&[0x66; 200]), component(&vec![0x67; count - 204])].concat()
}

/// A Name, opened to its components if its value is a row of such.
fn name_tree(name: &[u8]) -> Tree {
    let components: Result<Vec<Tree>, Broken> =
        elements(name).map(|element| element.map(|e| leaf(e.kind, e.value))).collect();
    match components {
        Ok(components) => branch(t::NAME, components),
        Err(_) => leaf(t::NAME, name),
    }
}

/// An Interest of Name, the two flags and Nonce, and then the elements in `rest`.
pub fn interest_tree(asked: &Asked, rest: Vec<Tree>) -> Tree {
    let mut children = vec![name_tree(asked.name)];
    if asked.can_be_prefix {
        children.push(leaf(t::CAN_BE_PREFIX, &[]));
    }
    if asked.must_be_fresh {
        children.push(leaf(t::MUST_BE_FRESH, &[]));
    }
    children.push(leaf(t::NONCE, &asked.nonce));
    children.extend(rest);
    branch(t::INTEREST, children)
}

/// A Data of a name, with the elements in `between` ahead of both signature elements' values.
pub fn data_tree(name: &[u8], between: Vec<Tree>, info: &[u8], value: &[u8]) -> Tree {
    let mut children = vec![name_tree(name)];
    children.extend(between);
    children.push(leaf(t::SIGNATURE_INFO, info));
    children.push(leaf(t::SIGNATURE_VALUE, value));
    branch(t::DATA, children)
}

/// A Nack field with the value of its NackReason, if it has one.
pub fn nack_field(reason: Option<&[u8]>) -> Tree {
    branch(t::NACK, reason.into_iter().map(|reason| leaf(t::NACK_REASON, reason)).collect())
}

/// An LpPacket of a header and, last, the Fragment.
pub fn lp_tree(header: Vec<Tree>, fragment: Tree) -> Tree {
    let mut children = header;
    children.push(fragment);
    branch(t::LP_PACKET, children)
}

/// A Nack with this NackReason, if any, over an Interest.
pub fn nack_tree(reason: Option<&[u8]>, interest: Tree) -> Tree {
    lp_tree(vec![nack_field(reason)], branch(t::FRAGMENT, vec![interest]))
}

/// A bare packet in an LpPacket with a header that is skipped.
pub fn in_lp(bare: &[u8]) -> Vec<u8> {
    lp_tree(vec![leaf(SKIPPED_IN_LP, &[1])], leaf(t::FRAGMENT, bare)).encode()
}

/// A Data's bytes, with so many bytes of Content.
pub fn data(name: &[u8], freshness: Option<u64>, content: usize) -> Vec<u8> {
    let mut between = Vec::new();
    if let Some(freshness) = freshness {
        let period = leaf(t::FRESHNESS_PERIOD, &write_whole_number(freshness));
        between.push(branch(t::META_INFO, vec![period]));
    }
    if content > 0 {
        between.push(leaf(t::CONTENT, &vec![FILLING; content]));
    }
    data_tree(name, between, &[], &[]).encode()
}

/// An Interest by what it asks for.
#[derive(Clone, Debug)]
pub struct Request {
    pub name: Vec<u8>,
    pub can_be_prefix: bool,
    pub must_be_fresh: bool,
    pub nonce: [u8; 4],
    pub lifetime: Option<u64>,
    pub hop_limit: Option<u8>,
}

impl Request {
    /// A request of ordinary kind.
    pub fn new(name: &[u8], nonce: u64) -> Request {
        Request {
            name: name.to_vec(),
            can_be_prefix: false,
            must_be_fresh: false,
            nonce: (nonce as u32).to_be_bytes(),
            lifetime: None,
            hop_limit: None,
        }
    }

    /// The part of the request that its Nack carries.
    fn asked(&self) -> Asked<'_> {
        Asked {
            name: &self.name,
            can_be_prefix: self.can_be_prefix,
            must_be_fresh: self.must_be_fresh,
            nonce: self.nonce,
        }
    }

    /// The Interest's bytes.
    pub fn interest(&self) -> Vec<u8> {
        let mut rest = Vec::new();
        if let Some(lifetime) = self.lifetime {
            rest.push(leaf(t::INTEREST_LIFETIME, &write_whole_number(lifetime)));
        }
        if let Some(hop_limit) = self.hop_limit {
            rest.push(leaf(t::HOP_LIMIT, &[hop_limit]));
        }
        interest_tree(&self.asked(), rest).encode()
    }

    /// The bytes of its Nack.
    pub fn nack(&self, reason: u64) -> Vec<u8> {
        write_nack(reason, &self.asked())
    }
}

impl From<&Interest<'_>> for Request {
    /// What an Interest that was read asks for.
    fn from(interest: &Interest) -> Request {
        Request {
            name: interest.name.to_vec(),
            can_be_prefix: interest.can_be_prefix,
            must_be_fresh: interest.must_be_fresh,
            nonce: interest.nonce,
            lifetime: Some(interest.lifetime),
            hop_limit: interest.hop_limit.map(|hop_limit| hop_limit.value),
        }
    }
}
