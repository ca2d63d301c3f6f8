//! The packets from outside, and document 01's own packet cases marked P.

mod common;

use common::{hex, I};
use independent::build::{data, element, in_lp, name, name_of_bytes, Request};
use independent::packet::{read, write_nack, Asked, Meaning, Refusal};

/// The answer number for a text in hex: 0 or the refusal's.
fn answer(text: &str) -> u8 {
    read(&hex(text)).map_or_else(Refusal::number, |_| 0)
}

const NAME_LOCAL_NDN_PREFIX: &str = "07 14 08 05 6C6F63616C 08 03 6E646E 08 06 707265666978";

/// Source 003 §6.3.1: the Nack NoRoute for /A/B, read and written.
#[test]
fn nack_no_route_for_a_b() {
    let bytes =
        hex("64 1B FD0320 05 FD0321 01 96 50 10 05 0E 07 06 08 01 41 08 01 42 0A 04 F3684F82");
    let packet = read(&bytes).unwrap();
    let Meaning::Nack { reason, interest } = packet.meaning else {
        panic!("not a Nack");
    };
    assert_eq!(reason, 150);
    assert_eq!(interest.name, name("/A/B"));
    assert_eq!(interest.nonce, [0xF3, 0x68, 0x4F, 0x82]);
    assert!(!interest.can_be_prefix && !interest.must_be_fresh);
    assert_eq!(write_nack(150, &Asked::from(&interest)), bytes);
}

/// In the form of ndn-cxx: the Interest for /local/ndn/prefix.
#[test]
fn interest_local_ndn_prefix() {
    let bytes = hex(&format!("05 1C {NAME_LOCAL_NDN_PREFIX} 0A 04 01000000"));
    let packet = read(&bytes).unwrap();
    let Meaning::Interest(interest) = packet.meaning else {
        panic!("not an Interest");
    };
    assert_eq!(interest.name, name("/local/ndn/prefix"));
    assert_eq!(interest.nonce, [1, 0, 0, 0]);
    assert_eq!((interest.lifetime, interest.hop_limit), (4_000, None));
}

/// In the form of ndn-cxx: the Data /local/ndn/prefix with freshness 10,000.
#[test]
fn data_local_ndn_prefix() {
    let signature_info =
        "16 1B 1B 01 01 1C 16 07 14 08 04 74657374 08 03 6B6579 08 07 6C6F6361746F72";
    let head = format!("06 C5 {NAME_LOCAL_NDN_PREFIX} 14 04 19 02 2710 15 08 5355434345535321");
    let mut bytes = hex(&format!("{head} {signature_info} 17 80"));
    bytes.extend([0xA5; 128]);
    let packet = read(&bytes).unwrap();
    let Meaning::Data(data) = packet.meaning else {
        panic!("not a Data");
    };
    assert_eq!(data.name, name("/local/ndn/prefix"));
    assert_eq!(data.freshness, 10_000);
    assert_eq!(packet.bare, bytes);
}

/// In the form of ndn-cxx: packets that are turned away.
#[test]
fn refused_packets() {
    let rows = [
        ("05 05 07 03 08 01 49", 5),
        ("05 00", 5),
        ("05 02 07 00", 5),
        ("05 0A 07 03 080149 0A 03 04C263", 5),
        ("05 0C 07 03 080149 0A 05 EFA420B262", 5),
        ("05 07 07 03 080149 22 00", 5),
        ("05 0D 07 03 080149 0A 04 01020304 22 00", 5),
        ("64 04 50 02 03E8", 5),
        ("64 0A 52 01 00 53 01 01 50 02 03E8", 5),
        ("64 09 FD0320 05 FD0321 01 64", 6),
    ];
    for (text, expected) in rows {
        assert_eq!(answer(text), expected, "{text}");
    }
}

/// Packet Format 0.3's whole numbers, read as the lifetime of an Interest.
#[test]
fn whole_numbers_as_lifetimes() {
    let rows = [
        ("01 00", 0),
        ("01 01", 1),
        ("01 FF", 255),
        ("02 0100", 256),
        ("02 FFFF", 60_000),
        ("04 00010000", 60_000),
    ];
    for (text, lifetime) in rows {
        let value = [hex("07 03 08 01 61 0A 04 01 02 03 04 0C"), hex(text)].concat();
        let bytes = element(5, &value);
        let Meaning::Interest(interest) = read(&bytes).unwrap().meaning else {
            panic!("not an Interest");
        };
        assert_eq!(interest.lifetime, lifetime);
    }
}

/// "P: I is /a with lifetime 4,000."
#[test]
fn i_is_a_with_lifetime_4000() {
    let bytes = hex(I);
    let packet = read(&bytes).unwrap();
    let Meaning::Interest(interest) = packet.meaning else {
        panic!("not an Interest");
    };
    assert_eq!(interest.name, name("/a"));
    assert_eq!(interest.lifetime, 4_000);
    assert_eq!(interest.nonce, [1, 2, 3, 4]);
    assert_eq!((packet.bare, packet.bare_at), (&bytes[..], 0));
}

/// "P: last byte cut, 5." "P: length 11 as `FD 00 0B`, 5." "P: empty input, 5."
#[test]
fn i_damaged() {
    let whole = hex(I);
    assert_eq!(read(&whole[..whole.len() - 1]), Err(Refusal::Malformed));
    assert_eq!(answer("05 FD 00 0B 07 03 08 01 61 0A 04 01 02 03 04"), 5);
    assert_eq!(answer(""), 5);
}

/// "P: its Nack 150 is `64 18 FD 03 20 05 FD 03 21 01 96 50 0D` then I."
#[test]
fn nack_of_i() {
    let bytes = hex(I);
    let Meaning::Interest(interest) = read(&bytes).unwrap().meaning else {
        panic!("not an Interest");
    };
    let expected = hex(&format!("64 18 FD 03 20 05 FD 03 21 01 96 50 0D {I}"));
    assert_eq!(write_nack(150, &Asked::from(&interest)), expected);
}

/// "P: 16 components pass, 17 give 4."
#[test]
fn components_16_and_17() {
    for (count, expected) in [(16, 0), (17, 4)] {
        let value = [element(7, &name("/a").repeat(count)), hex("0A 04 01 02 03 04")].concat();
        let answer = read(&element(5, &value)).map_or_else(Refusal::number, |_| 0);
        assert_eq!(answer, expected);
    }
}

/// "At worst it has 290 bytes."
#[test]
fn longest_nack() {
    let name = name_of_bytes(255);
    assert_eq!(name.len(), 255);
    let asked =
        Asked { name: &name, can_be_prefix: true, must_be_fresh: true, nonce: [1, 2, 3, 4] };
    assert_eq!(write_nack(150, &asked).len(), 290);
    assert_eq!(write_nack(0, &asked).len(), 285);
}

/// The builders' plainest packets, byte for byte.
#[test]
fn built_packets() {
    let request = Request::new(&name("/a"), 0x0102_0304);
    assert_eq!(request.interest(), hex(I));
    assert_eq!(request.nack(0), hex(&format!("64 13 FD 03 20 00 50 0D {I}")));
    assert_eq!(in_lp(&hex(I)), hex(&format!("64 14 FD 03 40 01 01 50 0D {I}")));
    let both = Request { can_be_prefix: true, must_be_fresh: true, ..request };
    let whole = Request { lifetime: Some(4_000), hop_limit: Some(9), ..both };
    let rest = "21 00 12 00 0A 04 01 02 03 04 0C 02 0F A0 22 01 09";
    assert_eq!(whole.interest(), hex(&format!("05 16 07 03 08 01 61 {rest}")));
    assert_eq!(data(&name("/a"), None, 0), hex("06 09 07 03 08 01 61 16 00 17 00"));
    let filled = "06 11 07 03 08 01 61 14 03 19 01 05 15 01 55 16 00 17 00";
    assert_eq!(data(&name("/a"), Some(5), 1), hex(filled));
}
