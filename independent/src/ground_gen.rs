//! The generator of the comparison input "ground": outside vectors, edges, then drawn groups.

use crate::build::{element, name, number};
use crate::ground::{
    write_one, write_two, ELEMENT, FINGERPRINT, FNV, NAME, NUMBER, PAIR, REACH, WRITE_NUMBER,
};
use crate::prng::Prng;

/// Drawn groups are added until the input has this many bytes.
const ENOUGH: usize = 52_000;
/// Every width's least and greatest number, and their neighbours.
const EDGE_NUMBERS: [u64; 14] =
    [0, 1, 127, 128, 251, 252, 253, 254, 255, 65_535, 65_536, 0xFFFF_FFFF, 0x1_0000_0000, u64::MAX];
/// The types at which a rule changes.
const EDGE_TYPES: [u64; 14] =
    [0, 1, 2, 3, 8, 31, 32, 252, 253, 65_535, 65_536, 0xFFFF_FFFF, 0x1_0000_0000, u64::MAX];
/// Numbers written longer than needed.
const NOT_SHORTEST: [&[u8]; 9] = [
    &[253, 0, 0],
    &[253, 0, 11],
    &[253, 0, 252],
    &[254, 0, 0, 0, 0],
    &[254, 0, 0, 0, 252],
    &[254, 0, 0, 255, 255],
    &[255, 0, 0, 0, 0, 0, 0, 0, 0],
    &[255, 0, 0, 0, 0, 0, 0, 255, 255],
    &[255, 0, 0, 0, 0, 255, 255, 255, 255],
];
/// Document 01's /a and the nonce of its I.
const A: &[u8] = &[8, 1, 0x61];
const NONCE: &[u8] = &[1, 2, 3, 4];

/// The last group, whose second field reaches past the end.
const UNREADABLE: [u8; 6] = [PAIR, 0, 0, 0, 2, 8];

/// The whole input, the same at every call.
pub fn generate() -> Vec<u8> {
    let mut out = Vec::new();
    vector_groups(&mut out);
    number_edges(&mut out);
    element_edges(&mut out);
    name_edges(&mut out);
    pair_edges(&mut out);
    reach_edges(&mut out);
    hash_edges(&mut out);
    let mut prng = Prng::new(1);
    while out.len() < ENOUGH {
        drawn_group(&mut prng, &mut out);
    }
    out.extend_from_slice(&UNREADABLE);
    out
}

/// The outside vectors that concern the ground.
fn vector_groups(out: &mut Vec<u8>) {
    for text in ["", "a", "foobar"] {
        write_one(FNV, text.as_bytes(), out);
    }
    write_two(FINGERPRINT, A, NONCE, out);
    for value in [&[0][..], &[1], &[255], &[1, 0], &[255, 255], &[0, 1, 0, 0]] {
        write_one(ELEMENT, &element(0x0C, value), out);
    }
    write_two(PAIR, &name("/AA"), &name("/AA/BB"), out);
    write_two(PAIR, &name("/A"), &name("/AA/BB"), out);
}

/// Numbers at the edges: whole, followed by more, cut everywhere, not shortest, and written.
fn number_edges(out: &mut Vec<u8>) {
    for value in EDGE_NUMBERS {
        let whole = number(value);
        for end in 0..=whole.len() {
            write_one(NUMBER, &whole[..end], out);
        }
        let mut more = whole;
        more.extend_from_slice(&[0, 255]);
        write_one(NUMBER, &more, out);
        write_one(WRITE_NUMBER, &value.to_be_bytes(), out);
    }
    for long in NOT_SHORTEST {
        write_one(NUMBER, long, out);
    }
}

/// Elements at the edges: every edge type, lengths that just fit, reach one too far or very far.
fn element_edges(out: &mut Vec<u8>) {
    for kind in EDGE_TYPES {
        for length in [0, 1, 5] {
            write_one(ELEMENT, &element(kind, &vec![7; length]), out);
        }
    }
    for length in [252, 253, 300] {
        write_one(ELEMENT, &element(8, &vec![7; length]), out);
    }
    for length in EDGE_NUMBERS {
        let mut header = number(8);
        header.extend_from_slice(&number(length));
        header.extend_from_slice(&[9; 127]);
        write_one(ELEMENT, &header, out);
    }
    let whole = element(300, &[1, 2, 3]);
    for end in 0..whole.len() {
        write_one(ELEMENT, &whole[..end], out);
    }
    for long in NOT_SHORTEST {
        let mut type_too_long = long.to_vec();
        type_too_long.extend_from_slice(&[1, 5]);
        write_one(ELEMENT, &type_too_long, out);
        let mut length_too_long = vec![8];
        length_too_long.extend_from_slice(long);
        length_too_long.extend_from_slice(&[9; 12]);
        write_one(ELEMENT, &length_too_long, out);
    }
    write_one(ELEMENT, &[8, 1, 5, 8, 1, 6], out);
}

/// Names at the edges: how many components, every edge type first and last, 5 beside 6, cut ones.
fn name_edges(out: &mut Vec<u8>) {
    for count in [0, 1, 2, 15, 16, 17, 100, 300] {
        write_one(NAME, &A.repeat(count), out);
        write_one(NAME, &[8, 0].repeat(count), out);
    }
    for kind in EDGE_TYPES {
        let odd = element(kind, b"x");
        write_one(NAME, &odd, out);
        write_one(NAME, &[A, &odd].concat(), out);
        write_one(NAME, &[&odd, A].concat(), out);
        write_one(NAME, &[&odd, &[1, 0][..]].concat(), out);
        write_one(NAME, &[&odd, &[8, 2, 1][..]].concat(), out);
    }
    for digest_type in [1, 2] {
        for length in [0, 31, 32, 33] {
            write_one(NAME, &element(digest_type, &vec![5; length]), out);
        }
    }
    let whole = name("/pump//7");
    for end in 0..=whole.len() {
        write_one(NAME, &whole[..end], out);
    }
    write_one(NAME, &[8, 253, 0, 1, 0x61], out);
    write_one(NAME, &[253, 0, 8, 1, 0x61], out);
    write_one(NAME, &element(8, &[1; 252]), out);
    write_one(NAME, &element(8, &[1; 253]), out);
}

/// Names to compare in pairs: prefixes, and names that agree in bytes but not in components.
fn pair_names() -> Vec<Vec<u8>> {
    vec![
        vec![],
        name("/"),
        name("//"),
        name("/a"),
        name("/a/b"),
        name("/a/b/c"),
        name("/ab"),
        name("/ab/c"),
        name("/a/bc"),
        name("/b"),
        name("/aa"),
        element(7, b"a"),
        element(9, b"a"),
        element(1, b"a"),
        element(252, b""),
        element(253, b""),
        element(65_535, b"a"),
        [&element(7, b"zz")[..], A].concat(),
        A.repeat(16),
        A.repeat(17),
        element(8, &[8, 1, 0x61]),
        element(8, &[0xFF]),
    ]
}

/// Every two of the names to compare, both ways, and long names that differ only at their ends.
fn pair_edges(out: &mut Vec<u8>) {
    let names = pair_names();
    for a in &names {
        for b in &names {
            write_two(PAIR, a, b, out);
        }
    }
    let mut long = vec![4; 253];
    let before = element(8, &long);
    long[252] = 5;
    write_two(PAIR, &before, &element(8, &long), out);
    write_two(PAIR, &element(8, &[9; 252]), &before, out);
    write_two(PAIR, &before, &[&before, A].concat(), out);
}

/// Names around `localhost` and `localhop`: other types, other places, longer and shorter words.
fn reach_edges(out: &mut Vec<u8>) {
    for word in ["localhost", "localhop"] {
        for kind in [1, 3, 7, 8, 9, 32, 264, 65_535] {
            write_one(REACH, &element(kind, word.as_bytes()), out);
        }
        write_one(REACH, &name(&format!("/{word}/a")), out);
        write_one(REACH, &name(&format!("/a/{word}")), out);
        write_one(REACH, &name(&format!("//{word}")), out);
        let (cut, last) = word.split_at(word.len() - 1);
        write_one(REACH, &name(&format!("/{cut}")), out);
        write_one(REACH, &name(&format!("/{cut}/{last}")), out);
        write_one(REACH, &name(&format!("/{word}s")), out);
        write_one(REACH, &name(&format!("/{word}\0")), out);
        write_one(REACH, &name(&format!("/{}", word.to_uppercase())), out);
    }
    write_one(REACH, &[], out);
    write_one(REACH, &name("//a"), out);
    write_one(REACH, &name("/local"), out);
    write_one(REACH, &name("/localhopt"), out);
    write_one(REACH, &name("/localhosp"), out);
}

/// Fingerprints and sums at the edges: nothing, one byte of each kind, long ones.
fn hash_edges(out: &mut Vec<u8>) {
    for names in [&[][..], &[8, 0], A, &A.repeat(16), &element(8, &[255; 252])] {
        for nonce in [[0, 0, 0, 0], [255, 255, 255, 255], [4, 3, 2, 1]] {
            write_two(FINGERPRINT, names, &nonce, out);
        }
    }
    for byte in [0, 1, 127, 128, 255] {
        write_one(FNV, &[byte], out);
        write_one(FNV, &[byte; 300], out);
    }
}

/// One drawn group of any operation.
fn drawn_group(prng: &mut Prng, out: &mut Vec<u8>) {
    match prng.between(1, 8) as u8 {
        NUMBER => {
            let bytes = drawn_number(prng);
            write_one(NUMBER, &bytes, out);
        }
        ELEMENT => {
            let bytes = drawn_element(prng);
            write_one(ELEMENT, &bytes, out);
        }
        NAME => {
            let bytes = drawn_name_or_not(prng);
            write_one(NAME, &bytes, out);
        }
        PAIR => {
            let (a, b) = drawn_pair(prng);
            write_two(PAIR, &a, &b, out);
        }
        REACH => {
            let bytes = drawn_reach(prng);
            write_one(REACH, &bytes, out);
        }
        FINGERPRINT => {
            let bytes = drawn_name(prng);
            let nonce = prng.bytes(4);
            write_two(FINGERPRINT, &bytes, &nonce, out);
        }
        FNV => {
            let count = prng.below(24);
            let bytes = prng.bytes(count);
            write_one(FNV, &bytes, out);
        }
        _ => write_one(WRITE_NUMBER, &prng.any_width().to_be_bytes(), out),
    }
}

/// A drawn number: mostly whole, sometimes cut or followed by more, sometimes only noise.
fn drawn_number(prng: &mut Prng) -> Vec<u8> {
    let mut bytes = number(prng.any_width());
    match prng.below(4) {
        0 => bytes.truncate(prng.below(bytes.len())),
        1 => bytes.push(prng.byte()),
        2 => {
            let count = prng.below(10);
            bytes = prng.bytes(count);
            bytes.insert(0, prng.pick(&[252, 253, 254, 255]));
        }
        _ => {}
    }
    bytes
}

/// A drawn element: whole, followed by more, cut, or with one byte changed.
fn drawn_element(prng: &mut Prng) -> Vec<u8> {
    let kind = prng.any_width() >> prng.pick(&[0, 16, 32, 32, 48]);
    let count = prng.below(12);
    let value = prng.bytes(count);
    let mut bytes = element(kind, &value);
    match prng.below(4) {
        0 => bytes.truncate(prng.below(bytes.len())),
        1 => bytes.push(prng.byte()),
        2 => {
            let at = prng.below(bytes.len());
            bytes[at] = prng.byte();
        }
        _ => {}
    }
    bytes
}

/// A drawn component whose type is 1 to 65,535 and, mostly, an ordinary one.
fn drawn_component(prng: &mut Prng) -> Vec<u8> {
    let kind = prng.pick(&[8, 8, 8, 8, 7, 9, 32, 50, 252, 253, 300, 65_535]);
    let count = prng.below(4);
    let value: Vec<u8> = (0..count).map(|_| prng.pick(b"ab")).collect();
    element(kind, &value)
}

/// A drawn well-formed name.
fn drawn_name(prng: &mut Prng) -> Vec<u8> {
    let count = prng.below(6);
    (0..count).flat_map(|_| drawn_component(prng)).collect()
}

/// A drawn name that may be damaged or hold a type outside the range.
fn drawn_name_or_not(prng: &mut Prng) -> Vec<u8> {
    let mut bytes = drawn_name(prng);
    match prng.below(5) {
        0 if !bytes.is_empty() => bytes.truncate(prng.below(bytes.len())),
        1 => bytes.extend(element(prng.pick(&EDGE_TYPES), b"a")),
        2 => bytes.extend(element(prng.pick(&[1, 2]), b"a")),
        3 if !bytes.is_empty() => {
            let at = prng.below(bytes.len());
            bytes[at] = prng.byte();
        }
        _ => {}
    }
    bytes
}

/// Two drawn names that often share their first components.
fn drawn_pair(prng: &mut Prng) -> (Vec<u8>, Vec<u8>) {
    let shared = drawn_name(prng);
    let mut a = shared.clone();
    let mut b = shared;
    if !prng.one_in(3) {
        a.extend(drawn_component(prng));
    }
    if !prng.one_in(3) {
        b.extend(drawn_component(prng));
    }
    if prng.one_in(3) {
        b.extend(drawn_component(prng));
    }
    (a, b)
}

/// A drawn name that often starts with a word like `localhost` or `localhop`.
fn drawn_reach(prng: &mut Prng) -> Vec<u8> {
    let mut word = prng.pick(&["localhost", "localhop", "localhos", "local"]).as_bytes().to_vec();
    if prng.one_in(3) {
        let at = prng.below(word.len());
        word[at] ^= 1 << prng.below(8);
    }
    let kind = prng.pick(&[8, 8, 8, 9, 7, 32]);
    let mut bytes = element(kind, &word);
    bytes.extend(drawn_name(prng));
    bytes
}
