//! What several tests share.

#![allow(dead_code)]

pub mod bench;
pub mod tapes;

/// Document 01's I.
pub const I: &str = "05 0B 07 03 08 01 61 0A 04 01 02 03 04";

/// The bytes of a text in hex; spaces do not count.
pub fn hex(text: &str) -> Vec<u8> {
    let digits: Vec<u32> =
        text.chars().filter(|c| !c.is_whitespace()).map(|c| c.to_digit(16).unwrap()).collect();
    assert!(digits.len().is_multiple_of(2), "an odd number of digits: {text}");
    digits.chunks(2).map(|pair| (pair[0] * 16 + pair[1]) as u8).collect()
}
