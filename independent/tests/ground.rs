//! The ground: outside vectors, edges, and properties over drawn values.

use independent::build::{element, name, number};
use independent::fingerprint::{fingerprint, fnv1a, STANDARD_START};
use independent::name::{
    canonical_order, components, count_components, is_prefix, is_same, reach, NameFault, Reach,
};
use independent::prng::Prng;
use independent::tlv::{
    elements, number_width, read_element, read_number, read_whole_number, write_whole_number,
};
use independent::{ground, ground_gen};
use std::cmp::Ordering;

const ROUNDS: usize = 3_000;

/// A drawn well-formed name over a small alphabet, so that equal parts are common.
fn drawn_name(prng: &mut Prng) -> Vec<u8> {
    let mut out = Vec::new();
    for _ in 0..prng.below(5) {
        let kind = prng.pick(&[8, 8, 9, 7, 253, 65_535]);
        let value = vec![prng.pick(b"ab"); prng.below(3)];
        out.extend(element(kind, &value));
    }
    out
}

/// Outside vectors: FNV-1a 64 of "", "a" and "foobar".
#[test]
fn fnv_vectors() {
    assert_eq!(fnv1a(STANDARD_START, b""), 0xCBF2_9CE4_8422_2325);
    assert_eq!(fnv1a(STANDARD_START, b"a"), 0xAF63_DC4C_8601_EC8C);
    assert_eq!(fnv1a(STANDARD_START, b"foobar"), 0x8594_4171_F739_67E8);
}

/// Outside vector: the fingerprint of document 01's I.
#[test]
fn fingerprint_vector() {
    assert_eq!(fingerprint(STANDARD_START, &[8, 1, 0x61], &[1, 2, 3, 4]), 0x0521_8545_85E2_E199);
}

/// Outside vectors: whole numbers by length and value, read and written.
#[test]
fn whole_number_vectors() {
    let rows: [(&[u8], u64); 6] = [
        (&[0x00], 0),
        (&[0x01], 1),
        (&[0xFF], 255),
        (&[0x01, 0x00], 256),
        (&[0xFF, 0xFF], 65_535),
        (&[0x00, 0x01, 0x00, 0x00], 65_536),
    ];
    for (bytes, value) in rows {
        assert_eq!(read_whole_number(bytes), Some(value));
        assert_eq!(write_whole_number(value), bytes);
    }
    for length in [0, 3, 5, 6, 7, 9] {
        assert_eq!(read_whole_number(&vec![0; length]), None);
    }
    assert_eq!(read_whole_number(&[0, 0, 0, 0, 0, 0, 0x0F, 0xA0]), Some(4_000));
}

/// Outside vector: /AA/BB is under /AA and not under /A.
#[test]
fn prefix_vector() {
    assert!(is_prefix(&name("/AA"), &name("/AA/BB")));
    assert!(!is_prefix(&name("/A"), &name("/AA/BB")));
}

/// "Shortest form only": every width at its edges, and longer forms refused.
#[test]
fn number_edges() {
    let rows = [
        (0, 1),
        (252, 1),
        (253, 3),
        (65_535, 3),
        (65_536, 5),
        (0xFFFF_FFFF, 5),
        (0x1_0000_0000, 9),
        (u64::MAX, 9),
    ];
    for (value, width) in rows {
        let bytes = number(value);
        assert_eq!(bytes.len(), width);
        let number = read_number(&bytes).unwrap();
        assert_eq!((number.value, number.width), (value, width));
    }
    assert!(read_number(&[253, 0, 252]).is_none());
    assert!(read_number(&[254, 0, 0, 255, 255]).is_none());
    assert!(read_number(&[255, 0, 0, 0, 0, 255, 255, 255, 255]).is_none());
    assert!(read_number(&[]).is_none());
}

/// "Type is 1 to 2^32-1."
#[test]
fn element_types() {
    for (kind, good) in [(0, false), (1, true), (0xFFFF_FFFF, true), (0x1_0000_0000, false)] {
        assert_eq!(read_element(&element(kind, b"v"), 0).is_ok(), good, "type {kind}");
    }
}

/// What is written as a number reads back to it; any cut of it does not.
#[test]
fn drawn_numbers_read_back() {
    let mut prng = Prng::new(11);
    for _ in 0..ROUNDS {
        let value = prng.any_width();
        let mut bytes = number(value);
        for end in 0..bytes.len() {
            assert!(read_number(&bytes[..end]).is_none());
        }
        bytes.extend(prng.bytes(2));
        let number = read_number(&bytes).unwrap();
        assert_eq!((number.value, number.width), (value, number_width(value)));
    }
}

/// A number that reads from noise writes back to the very bytes it came from.
#[test]
fn noise_numbers_write_back() {
    let mut prng = Prng::new(12);
    for _ in 0..ROUNDS {
        let mut noise = prng.bytes(9);
        noise[0] = prng.pick(&[0, 252, 253, 254, 255]);
        if prng.one_in(2) {
            noise[1..5].fill(0);
        }
        if let Some(found) = read_number(&noise) {
            assert_eq!(number(found.value), noise[..found.width]);
        }
    }
}

/// Elements written one after the other are walked over in the same order.
#[test]
fn drawn_elements_read_back() {
    let mut prng = Prng::new(13);
    for _ in 0..ROUNDS / 10 {
        let mut bytes = Vec::new();
        let mut expected = Vec::new();
        for _ in 0..prng.below(6) {
            let kind = 1 + prng.any_width() % 0xFFFF_FFFF;
            let count = prng.below(300);
            let value = prng.bytes(count);
            bytes.extend(element(kind, &value));
            expected.push((kind, value));
        }
        let read: Vec<_> =
            elements(&bytes).map(|e| e.unwrap()).map(|e| (e.kind, e.value.to_vec())).collect();
        assert_eq!(read, expected);
    }
}

/// An element read from noise lies within its parent.
#[test]
fn noise_elements_end_within_their_parent() {
    let mut prng = Prng::new(14);
    for _ in 0..ROUNDS {
        let count = prng.below(20);
        let noise = prng.bytes(count);
        if let Ok(element) = read_element(&noise, 0) {
            assert!(element.next <= noise.len());
            assert_eq!(element.value, &noise[element.value_at..element.next]);
            assert!((1..=0xFFFF_FFFF).contains(&element.kind));
        }
    }
}

/// "Component types are 1 to 65,535; types 1 and 2 are 6", any 5 before any 6.
#[test]
fn component_types() {
    let judge = |kinds: &[u64]| {
        let bytes: Vec<u8> = kinds.iter().flat_map(|&kind| element(kind, b"")).collect();
        count_components(&bytes)
    };
    assert_eq!(judge(&[]), Ok(0));
    assert_eq!(judge(&[3, 8, 65_535]), Ok(3));
    assert_eq!(judge(&[1]), Err(NameFault::Unsupported));
    assert_eq!(judge(&[8, 2]), Err(NameFault::Unsupported));
    assert_eq!(judge(&[1, 0]), Err(NameFault::Malformed));
    assert_eq!(judge(&[65_536, 1]), Err(NameFault::Malformed));
    assert_eq!(judge(&[2, 65_536]), Err(NameFault::Malformed));
}

/// For well-formed names, equality, prefix and order agree with each other and with the bytes.
#[test]
fn drawn_names_compare() {
    let mut prng = Prng::new(15);
    for _ in 0..ROUNDS {
        let (a, b, c) = (drawn_name(&mut prng), drawn_name(&mut prng), drawn_name(&mut prng));
        assert_eq!(is_same(&a, &b), a == b);
        assert_eq!(is_prefix(&a, &b), b.starts_with(&a));
        assert_eq!(canonical_order(&a, &b), canonical_order(&b, &a).reverse());
        assert_eq!(canonical_order(&a, &b) == Ordering::Equal, a == b);
        if canonical_order(&a, &b).is_lt() && canonical_order(&b, &c).is_lt() {
            assert!(canonical_order(&a, &c).is_lt());
        }
        if is_prefix(&a, &b) && a != b {
            assert!(canonical_order(&a, &b).is_lt());
            assert!(components(&a).count() < components(&b).count());
        }
    }
}

/// "Component type, length, bytes; a prefix first": an ascending row.
#[test]
fn canonical_row() {
    let mut row = vec![Vec::new()];
    for (kind, value) in [(7, &b"zz"[..]), (8, b""), (8, b"b"), (8, b"aa"), (8, b"ab"), (9, b"")] {
        let one = element(kind, value);
        let two = [one.clone(), element(3, b"")].concat();
        row.extend([one, two]);
    }
    for (i, a) in row.iter().enumerate() {
        for (j, b) in row.iter().enumerate() {
            assert_eq!(canonical_order(a, b), i.cmp(&j), "{a:02x?} {b:02x?}");
        }
    }
}

/// "`localhost` and `localhop` are whole first components of type 8."
#[test]
fn reach_of_names() {
    assert_eq!(reach(&name("/localhost/x")), Reach::Localhost);
    assert_eq!(reach(&name("/localhop")), Reach::Localhop);
    for text in ["/localhos", "/localhosts", "/x/localhost", "//localhop", ""] {
        assert_eq!(reach(&name(text)), Reach::Anywhere);
    }
    assert_eq!(reach(&element(9, b"localhost")), Reach::Anywhere);
}

/// A fingerprint is the sum over name and nonce in one piece, from any start.
#[test]
fn fingerprint_is_one_sum() {
    let mut prng = Prng::new(16);
    for _ in 0..ROUNDS / 10 {
        let (start, name, nonce) = (prng.word(), drawn_name(&mut prng), prng.bytes(4));
        let whole = [name.clone(), nonce.clone()].concat();
        assert_eq!(fingerprint(start, &name, &nonce), fnv1a(start, &whole));
    }
}

/// The generated input has the size asked for and is the same each time.
#[test]
fn generated_ground_input() {
    let input = ground_gen::generate();
    assert!((40_000..=60_000).contains(&input.len()), "{} bytes", input.len());
    assert_eq!(input, ground_gen::generate());
}

/// A run of the line format: one group of each operation, then an unreadable one.
#[test]
fn ground_lines() {
    let mut input = Vec::new();
    ground::write_one(1, &[253, 1, 0, 9], &mut input);
    ground::write_one(1, &[253, 0, 1], &mut input);
    ground::write_one(2, &[8, 1, 5, 9], &mut input);
    ground::write_one(2, &[8, 2, 5], &mut input);
    ground::write_one(3, &[8, 0, 8, 0], &mut input);
    ground::write_one(3, &[1, 0], &mut input);
    ground::write_two(4, &[8, 0], &[8, 0, 8, 0], &mut input);
    ground::write_one(5, &name("/localhop"), &mut input);
    ground::write_two(6, &[8, 1, 0x61], &[1, 2, 3, 4], &mut input);
    ground::write_one(7, b"", &mut input);
    ground::write_one(8, &256u64.to_be_bytes(), &mut input);
    let end = input.len();
    input.extend([9, 0, 0]);
    let expected = format!(
        "1 256 3\n1 bad\n2 8 2 1 3\n2 bad\n3 0 2\n3 6\n4 0 1 0\n5 2\n6 369723178066567577\n\
         7 14695981039346656037\n8 253 1 0\nbad {end}\n"
    );
    assert_eq!(ground::run(&input), expected);
}
