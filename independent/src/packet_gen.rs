//! The generator of "packets" inputs: packets made from the grammar, many of them damaged.

use crate::build::{
    component, data_tree, element, interest_tree, lp_tree, nack_field, name_of_bytes,
};
use crate::name::GENERIC;
use crate::packet::table as t;
use crate::packet::Asked;
use crate::packets::{write_group, INPUT_BYTES};
use crate::prng::Prng;
use crate::tlv::write_whole_number;
use crate::tree::{branch, leaf, Body, Tree};

/// Lp elements that are skipped, and such that are 6.
const LP_SKIPPED: [u64; 10] =
    [0x0324, 0x032C, 0x0330, 0x0334, 0x0340, 0x0344, 0x0348, 0x034C, 0x0350, 956];
const LP_UNSUPPORTED: [u64; 15] = [
    0x51,
    0x52,
    0x53,
    0x54,
    0x62,
    0x0321,
    0x0322,
    0x0323,
    799,
    796,
    958,
    960,
    961,
    0x07,
    0xFFFF_FFFF,
];
/// Types known nowhere in a bare packet: critical ones, and such that are skipped.
const UNKNOWN_CRITICAL: [u64; 8] = [1, 3, 30, 31, 33, 0x25, 253, 0xFFFF_FFFF];
const UNKNOWN_SKIPPED: [u64; 8] = [32, 0x26, 0x40, 252, 254, 65_534, 65_536, 0xFFFF_FFFE];
/// Elements that are 6 at the end of an Interest, in their order.
const MARKED_AT_THE_END: [u64; 3] =
    [t::APPLICATION_PARAMETERS, t::INTEREST_SIGNATURE_INFO, t::INTEREST_SIGNATURE_VALUE];
/// Whole numbers at which a rule changes.
const LIFETIMES: [u64; 10] = [0, 1, 100, 255, 256, 4_000, 59_999, 60_000, 60_001, u64::MAX];
const FRESHNESSES: [u64; 9] =
    [0, 1, 255, 10_000, 86_399_999, 86_400_000, 86_400_001, 0x1_0000_0000, u64::MAX];
const REASONS: [u64; 9] = [0, 50, 100, 150, 1, 151, 255, 256, u64::MAX];
/// Room that is left free at the end for a last group that cannot be read.
const LAST_GROUP: usize = 16;

/// One input of at most 65,536 bytes; every third seed ends with a group that cannot be read.
pub fn generate(seed: u64) -> Vec<u8> {
    let mut prng = Prng::new(seed);
    let mut out = Vec::new();
    loop {
        let packet = packet(&mut prng);
        if out.len() + packet.len() + 3 + LAST_GROUP > INPUT_BYTES {
            break;
        }
        write_group(&packet, &mut out);
    }
    match seed % 9 {
        0 => out.extend_from_slice(&[14, 5, 12, 7, 3, 8, 1, 0x61]),
        3 => out.extend_from_slice(&[0x81, 0x00, 5]),
        6 => out.extend_from_slice(&[0xFF, 0xFF, 0xFF, 0xFF, 0xFF, 0xFF, 0xFF, 0xFF, 0xFF, 2]),
        _ => {}
    }
    out
}

/// One packet: good, damaged in its elements, damaged in its bytes, at the sizes' edges, or noise.
pub fn packet(prng: &mut Prng) -> Vec<u8> {
    match prng.below(200) {
        0..=75 => good(prng).encode(),
        76..=79 => one_repeated(prng).encode(),
        80..=141 => damaged_tree(prng).encode(),
        142..=153 => {
            let tree = good(prng);
            let which = prng.below(2 * tree.size());
            tree.encode_with_long_number(which)
        }
        154..=187 => damaged_bytes(prng),
        188..=192 => name_of_edge_size(prng).encode(),
        193 => packet_of_edge_size(prng),
        194..=195 => stacked_faults(prng).encode(),
        196..=197 => odd_lp_packet(prng).encode(),
        _ => noise(prng),
    }
}

/// A packet that keeps the grammar; it may still hold something that is 6.
fn good(prng: &mut Prng) -> Tree {
    match prng.below(10) {
        0..=3 => interest(prng),
        4..=5 => data(prng),
        6..=7 => nack(prng),
        _ => {
            let bare = if prng.one_in(2) { interest(prng) } else { data(prng) };
            lp_packet(prng, None, vec![bare])
        }
    }
}

/// A whole number in any of the widths that hold it.
fn whole(prng: &mut Prng, from: &[u64]) -> Vec<u8> {
    let value = prng.pick(from);
    let fewest = write_whole_number(value).len();
    let widths: Vec<usize> = [1, 2, 4, 8].into_iter().filter(|&width| width >= fewest).collect();
    let width = if prng.one_in(4) { prng.pick(&widths) } else { fewest };
    value.to_be_bytes()[8 - width..].to_vec()
}

/// A component: mostly an ordinary one of a few letters.
fn drawn_component(prng: &mut Prng) -> Vec<u8> {
    let kind = if prng.one_in(12) { prng.pick(&[3, 7, 9, 32, 253, 65_535]) } else { GENERIC };
    let count = prng.below(5);
    let letters: Vec<u8> = (0..count).map(|_| prng.pick(b"abcxyz01")).collect();
    element(kind, &letters)
}

/// A name of so many components.
fn name(prng: &mut Prng, count: usize) -> Vec<u8> {
    let mut components: Vec<Vec<u8>> = (0..count).map(|_| drawn_component(prng)).collect();
    if count > 0 && prng.one_in(25) {
        components[0] = component(prng.pick(&["localhost", "localhop"]).as_bytes());
    }
    components.concat()
}

/// The elements directly within a packet that was built.
fn children_of(packet: &mut Tree) -> &mut Vec<Tree> {
    packet.nth_branch(0).expect("a packet holds elements")
}

/// An Interest that keeps the grammar.
fn interest(prng: &mut Prng) -> Tree {
    let count = prng.between(1, 4);
    let name = name(prng, count);
    interest_for(prng, &name)
}

/// An Interest for a given name; one in sixteen has elements that are 6.
fn interest_for(prng: &mut Prng, name: &[u8]) -> Tree {
    let (can_be_prefix, must_be_fresh) = (prng.one_in(3), prng.one_in(3));
    let nonce = [prng.byte(), prng.byte(), prng.byte(), prng.byte()];
    let mut rest = Vec::new();
    if prng.one_in(2) {
        let lifetime = whole(prng, &LIFETIMES);
        rest.push(leaf(t::INTEREST_LIFETIME, &lifetime));
    }
    if prng.one_in(2) {
        rest.push(leaf(t::HOP_LIMIT, &[prng.pick(&[0, 1, 2, 64, 255])]));
    }
    let mut tree = interest_tree(&Asked { name, can_be_prefix, must_be_fresh, nonce }, rest);
    if prng.one_in(16) {
        add_marked(prng, children_of(&mut tree));
    }
    add_skipped(prng, children_of(&mut tree));
    tree
}

/// Puts one or more elements that are 6 where the order wants them.
fn add_marked(prng: &mut Prng, children: &mut Vec<Tree>) {
    let count = prng.below(5);
    let value = prng.bytes(count);
    if prng.one_in(3) {
        add_hint(children, &value);
        return;
    }
    let chosen = prng.between(1, 7);
    for (bit, kind) in MARKED_AT_THE_END.into_iter().enumerate() {
        if chosen >> bit & 1 == 1 {
            children.push(leaf(kind, &value));
        }
    }
}

/// Puts a ForwardingHint ahead of the Nonce.
fn add_hint(children: &mut Vec<Tree>, value: &[u8]) {
    let nonce_at = children.iter().position(|child| child.kind == t::NONCE).unwrap_or(0);
    children.insert(nonce_at, leaf(t::FORWARDING_HINT, value));
}

/// Now and then puts an element that is skipped anywhere.
fn add_skipped(prng: &mut Prng, children: &mut Vec<Tree>) {
    if prng.one_in(12) {
        let at = prng.below(children.len() + 1);
        let count = prng.below(4);
        let value = prng.bytes(count);
        children.insert(at, leaf(prng.pick(&UNKNOWN_SKIPPED), &value));
    }
}

/// A Data that keeps the grammar.
fn data(prng: &mut Prng) -> Tree {
    let count = prng.below(5);
    let name = name(prng, count);
    data_for(prng, &name)
}

/// A Data of a given name.
fn data_for(prng: &mut Prng, name: &[u8]) -> Tree {
    let mut between = Vec::new();
    if !prng.one_in(3) {
        between.push(meta_info(prng));
    }
    if !prng.one_in(4) {
        let count = prng.below(8);
        let content = prng.bytes(count);
        between.push(leaf(t::CONTENT, &content));
    }
    let info = if prng.one_in(3) { &[][..] } else { &[0x1B, 1, 0] };
    let count = prng.below(6);
    let value = prng.bytes(count);
    let mut tree = data_tree(name, between, info, &value);
    add_skipped(prng, children_of(&mut tree));
    tree
}

/// A MetaInfo with any of its elements.
fn meta_info(prng: &mut Prng) -> Tree {
    let mut children = Vec::new();
    if prng.one_in(4) {
        let count = prng.below(4);
        let value = prng.bytes(count);
        children.push(leaf(t::CONTENT_TYPE, &value));
    }
    if !prng.one_in(4) {
        let freshness = whole(prng, &FRESHNESSES);
        children.push(leaf(t::FRESHNESS_PERIOD, &freshness));
    }
    if prng.one_in(4) {
        let count = prng.below(4);
        let value = prng.bytes(count);
        children.push(leaf(t::FINAL_BLOCK_ID, &value));
    }
    add_skipped(prng, &mut children);
    branch(t::META_INFO, children)
}

/// A Nack over an Interest.
fn nack(prng: &mut Prng) -> Tree {
    let reason = if prng.one_in(6) { None } else { Some(whole(prng, &REASONS)) };
    let bare = interest(prng);
    lp_packet(prng, Some(nack_field(reason.as_deref())), vec![bare])
}

/// An LpPacket: skipped elements anywhere before the Fragment, now and then one that is 6.
fn lp_packet(prng: &mut Prng, nack: Option<Tree>, held: Vec<Tree>) -> Tree {
    let mut header: Vec<Tree> = nack.into_iter().collect();
    for _ in 0..prng.pick(&[0, 0, 0, 1, 1, 2]) {
        let kind =
            if prng.one_in(12) { prng.pick(&LP_UNSUPPORTED) } else { prng.pick(&LP_SKIPPED) };
        let count = prng.below(4);
        let value = prng.bytes(count);
        let at = prng.below(header.len() + 1);
        header.insert(at, leaf(kind, &value));
    }
    lp_tree(header, branch(t::FRAGMENT, held))
}

/// A good packet with one or two of its elements wrong.
fn damaged_tree(prng: &mut Prng) -> Tree {
    let mut tree = good(prng);
    damage(prng, &mut tree);
    if prng.one_in(5) {
        damage(prng, &mut tree);
    }
    tree
}

/// One wrong element: repeated, moved, removed, added, of another length or of another type.
fn damage(prng: &mut Prng, tree: &mut Tree) {
    if tree.branches() == 0 {
        return;
    }
    match prng.below(12) {
        0..=3 => {
            let which = prng.below(tree.branches());
            let children = tree.nth_branch(which).expect("the branch was counted");
            rearrange(prng, children);
        }
        4..=7 => {
            let which = prng.below(tree.branches());
            let children = tree.nth_branch(which).expect("the branch was counted");
            add_element(prng, children);
        }
        8..=10 => {
            let which = prng.below(tree.size());
            relength(prng, tree.nth(which).expect("the element was counted"));
        }
        _ => {
            let which = prng.below(tree.size());
            retype(prng, tree.nth(which).expect("the element was counted"));
        }
    }
}

/// Repeats, moves or removes one of the children.
fn rearrange(prng: &mut Prng, children: &mut Vec<Tree>) {
    if children.is_empty() {
        return;
    }
    let from = prng.below(children.len());
    match prng.below(3) {
        0 => {
            let copy = children[from].clone();
            let to = prng.below(children.len() + 1);
            children.insert(to, copy);
        }
        1 => {
            let moved = children.remove(from);
            let to = prng.below(children.len() + 1);
            children.insert(to, moved);
        }
        _ => {
            children.remove(from);
        }
    }
}

/// Adds an element that may be unknown, known elsewhere, 6, or no type at all.
fn add_element(prng: &mut Prng, children: &mut Vec<Tree>) {
    let known = t::TABLE[prng.below(t::TABLE.len())].kind;
    let kind = match prng.below(8) {
        0 => prng.pick(&UNKNOWN_CRITICAL),
        1 => prng.pick(&UNKNOWN_SKIPPED),
        2 => prng.pick(&MARKED_AT_THE_END),
        3 => prng.pick(&LP_UNSUPPORTED),
        4 => prng.pick(&LP_SKIPPED),
        5 => prng.pick(&[0, 1, 2, 65_535, 65_536, 0xFFFF_FFFF, 0x1_0000_0000]),
        _ => known,
    };
    let count = prng.pick(&[0, 1, 2, 3, 4, 8]);
    let value = prng.bytes(count);
    let at = prng.below(children.len() + 1);
    children.insert(at, leaf(kind, &value));
}

/// Gives an element plain bytes of another length.
fn relength(prng: &mut Prng, tree: &mut Tree) {
    let count = prng.below(10);
    let value = prng.bytes(count);
    tree.body = Body::Bytes(value);
}

/// Gives an element another type.
fn retype(prng: &mut Prng, tree: &mut Tree) {
    tree.kind = match prng.below(3) {
        0 => tree.kind + 1,
        1 => tree.kind.saturating_sub(1),
        _ => prng.pick(&[0, 1, 2, 4, 0x09, 0x20, 0x50, 0x64, 0x0320, 0x1_0000_0000]),
    };
}

/// A good packet whose bytes were changed: bits flipped, cut, lengthened, one byte made anew.
fn damaged_bytes(prng: &mut Prng) -> Vec<u8> {
    let mut bytes = good(prng).encode();
    match prng.below(5) {
        0 | 1 => {
            for _ in 0..prng.between(1, 3) {
                let at = prng.below(bytes.len());
                bytes[at] ^= 1 << prng.below(8);
            }
        }
        2 => bytes.truncate(prng.below(bytes.len())),
        3 => {
            let count = prng.between(1, 4);
            bytes.extend(prng.bytes(count));
        }
        _ => {
            let at = prng.below(bytes.len());
            bytes[at] = prng.pick(&[0, 1, 31, 252, 253, 254, 255]);
        }
    }
    bytes
}

/// An Interest, Data or Nack whose name is at a size's edge, either side of it.
fn name_of_edge_size(prng: &mut Prng) -> Tree {
    let name = match prng.below(8) {
        0 => name_of_bytes(255),
        1 => name_of_bytes(256),
        2 | 3 => component(b"c").repeat(16),
        4 | 5 => component(b"").repeat(17),
        6 => component(b"d").repeat(17),
        _ => element(1, b"e").repeat(17),
    };
    match prng.below(3) {
        0 => interest_for(prng, &name),
        1 => data_for(prng, &name),
        _ => {
            let bare = interest_for(prng, &name);
            lp_packet(prng, Some(nack_field(None)), vec![bare])
        }
    }
}

/// A packet of exactly 1,500 bytes or a few more, otherwise good or damaged.
fn packet_of_edge_size(prng: &mut Prng) -> Vec<u8> {
    let mut tree = match prng.below(4) {
        0 => damaged_tree(prng),
        _ => good(prng),
    };
    let total: usize = prng.pick(&[1_499, 1_500, 1_500, 1_501, 1_501, 1_502]);
    let kind = if tree.kind == t::LP_PACKET { 0x0348 } else { 0x40 };
    let Body::Children(children) = &mut tree.body else {
        return tree.encode();
    };
    children.insert(0, leaf(kind, &[0; 1_000]));
    let more = total.saturating_sub(tree.encode().len());
    let wanted = vec![0; 1_000 + more];
    tree.nth(1).expect("the filling was put in first").body = Body::Bytes(wanted);
    tree.encode()
}

/// Two faults of different answers in one packet: a name too long beside something that is 6 or 5.
fn stacked_faults(prng: &mut Prng) -> Tree {
    let long = component(b"").repeat(17);
    let mut tree = interest_tree(&plain(&long, false), Vec::new());
    let children = children_of(&mut tree);
    match prng.below(4) {
        0 => add_hint(children, &[0]),
        1 => children.push(leaf(0x25, &[])),
        2 => children.truncate(1),
        _ => children.push(leaf(t::APPLICATION_PARAMETERS, &[])),
    }
    if prng.one_in(2) {
        return tree;
    }
    let header = vec![leaf(prng.pick(&LP_UNSUPPORTED), &[0])];
    lp_tree(header, branch(t::FRAGMENT, vec![tree]))
}

/// What an Interest of nonce 1, 2, 3, 4 asks for, with both flags or none.
fn plain(name: &[u8], flags: bool) -> Asked<'_> {
    Asked { name, can_be_prefix: flags, must_be_fresh: flags, nonce: [1, 2, 3, 4] }
}

/// An element of a type whose value is the one byte 7.
fn seven(kind: u64) -> Tree {
    leaf(kind, &[7])
}

/// An Interest with every element it may have.
fn full_interest(prng: &mut Prng) -> Tree {
    let mut rest = vec![seven(t::INTEREST_LIFETIME), seven(t::HOP_LIMIT)];
    rest.extend(MARKED_AT_THE_END.map(|kind| leaf(kind, &[])));
    let mut tree = interest_tree(&plain(&name(prng, 1), true), rest);
    add_hint(children_of(&mut tree), &[]);
    tree
}

/// A Data with every element it may have.
fn full_data(prng: &mut Prng) -> Tree {
    let meta = vec![seven(t::CONTENT_TYPE), seven(t::FRESHNESS_PERIOD), seven(t::FINAL_BLOCK_ID)];
    let between = vec![branch(t::META_INFO, meta), seven(t::CONTENT)];
    data_tree(&name(prng, 1), between, &[7], &[7])
}

/// A full Interest, a full Data or a Nack with one element twice, at any depth below the first.
fn one_repeated(prng: &mut Prng) -> Tree {
    let mut tree = match prng.below(3) {
        0 => full_interest(prng),
        1 => full_data(prng),
        _ => {
            let bare = interest(prng);
            lp_packet(prng, Some(nack_field(Some(&[7]))), vec![bare])
        }
    };
    let which = prng.below(tree.branches());
    let children = tree.nth_branch(which).expect("the branch was counted");
    let at = prng.below(children.len());
    children.insert(at, children[at].clone());
    tree
}

/// An LpPacket whose Nack and Fragment do not go together, or whose Fragment holds no bare packet.
fn odd_lp_packet(prng: &mut Prng) -> Tree {
    let reason = nack_field(Some(&[7]));
    let (asked, offered) = (interest(prng), data(prng));
    match prng.below(9) {
        0 => lp_packet(prng, Some(reason), vec![offered]),
        1 => {
            let marked = data_for(prng, &element(1, &[5]));
            lp_packet(prng, Some(reason), vec![marked])
        }
        2 => {
            let inner = lp_packet(prng, None, vec![asked]);
            lp_packet(prng, None, vec![inner])
        }
        3 => {
            let piece = &asked.encode()[..5];
            let header = vec![seven(0x51), leaf(0x52, &[0]), leaf(0x53, &[2])];
            lp_tree(header, leaf(t::FRAGMENT, piece))
        }
        4 => lp_packet(prng, Some(reason), Vec::new()),
        5 => lp_packet(prng, None, vec![asked, offered]),
        6 => branch(t::LP_PACKET, vec![reason]),
        7 => branch(t::LP_PACKET, vec![branch(t::FRAGMENT, vec![asked]), reason]),
        _ => {
            let header = vec![leaf(0x53, &[1]), reason];
            lp_tree(header, branch(t::FRAGMENT, vec![asked]))
        }
    }
}

/// A few bytes of no meaning, often after the start of a packet.
fn noise(prng: &mut Prng) -> Vec<u8> {
    let count = prng.below(12);
    let mut bytes = prng.bytes(count);
    if count > 1 && prng.one_in(2) {
        bytes[0] = prng.pick(&[5, 6, 0x64]);
        bytes[1] = (count - 2) as u8;
    }
    bytes
}
