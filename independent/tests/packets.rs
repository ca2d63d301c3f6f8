//! The packet reader and writers: the fixed table, the settled readings, and generated packets.

mod common;

use common::{hex, I};
use independent::build::{element, name, name_of_bytes};
use independent::packet::table::{Length, Parent, FRAGMENT, TABLE};
use independent::packet::{
    data_as_it_leaves, interest_as_it_leaves, read, read_watched, write_nack, Asked, Interest,
    Meaning, Packet, Refusal, Verdict,
};
use independent::packets::{packets_of, run, write_group, INPUT_BYTES};
use independent::prng::Prng;
use independent::tape_number::{read_tape_number, write_tape_number};
use independent::{packet_gen, tlv};
use std::collections::BTreeMap;

const SEEDS: u64 = 20;

/// The answer number for some bytes: 0 or the refusal's.
fn answer(bytes: &[u8]) -> u8 {
    read(bytes).map_or_else(Refusal::number, |_| 0)
}

/// An Interest for /a whose elements after the Name are given in hex.
fn interest(rest: &str) -> Vec<u8> {
    element(5, &[hex("07 03 08 01 61"), hex(rest)].concat())
}

/// A Data of /a whose elements after the Name are given in hex.
fn data(rest: &str) -> Vec<u8> {
    element(6, &[hex("07 03 08 01 61"), hex(rest)].concat())
}

/// An LpPacket: a header in hex, then a Fragment that holds `held`, then more in hex.
fn lp(header: &str, held: &[u8], after: &str) -> Vec<u8> {
    element(0x64, &[hex(header), element(0x50, held), hex(after)].concat())
}

const NONCE: &str = "0A 04 01 02 03 04";
const SIGNED: &str = "16 00 17 00";

/// The table's facts: one row for a type in a parent, places ascending, one required place each.
#[test]
fn table_facts() {
    for (at, row) in TABLE.iter().enumerate() {
        for other in &TABLE[at + 1..] {
            let same = row.parent == other.parent && row.kind == other.kind;
            assert!(!same, "{row:?} twice");
            if row.parent == other.parent {
                let choice = matches!(row.parent, Parent::Input | Parent::Fragment);
                assert!(if choice { row.place == 0 } else { row.place < other.place });
            }
        }
        assert!((1..=tlv::GREATEST_TYPE).contains(&row.kind));
    }
}

/// Interests: order, repeats, lengths, critical and skipped elements, the ones that are 6.
#[test]
fn interest_grammar() {
    let rows: [(&str, u8); 21] = [
        ("21 00 12 00 0A 04 01 02 03 04 0C 01 05 22 01 07", 0),
        ("12 00 21 00 0A 04 01 02 03 04", 5),
        ("21 00 21 00 0A 04 01 02 03 04", 5),
        ("21 01 00 0A 04 01 02 03 04", 5),
        ("12 01 00 0A 04 01 02 03 04", 5),
        ("0A 04 01 02 03 04 12 00", 5),
        ("0A 04 01 02 03 04 22 01 05 0C 01 05", 5),
        ("0A 04 01 02 03 04 22 01 05 22 01 05", 5),
        ("0A 04 01 02 03 04 22 02 05 05", 5),
        ("0A 04 01 02 03 04 0C 00", 5),
        ("0A 04 01 02 03 04 0C 03 00 00 01", 5),
        ("0A 04 01 02 03 04 0C 08 00 00 00 00 00 00 0F A0", 0),
        ("1E 01 00 0A 04 01 02 03 04", 6),
        ("0A 04 01 02 03 04 24 00", 6),
        ("0A 04 01 02 03 04 24 00 2C 00 2E 00", 6),
        ("0A 04 01 02 03 04 2C 00 24 00", 5),
        ("0A 04 01 02 03 04 24 00 24 00", 5),
        ("0A 04 01 02 03 04 1E 00", 5),
        ("1E 01 00", 5),
        ("20 00 0A 04 01 02 03 04 26 01 00", 0),
        ("0A 04 01 02 03 04 25 00", 5),
    ];
    for (rest, expected) in rows {
        assert_eq!(answer(&interest(rest)), expected, "{rest}");
    }
    assert_eq!(answer(&element(5, &hex(&format!("28 01 07 07 03 08 01 61 {NONCE}")))), 0);
    assert_eq!(answer(&element(5, &hex(&format!("07 00 {NONCE}")))), 5);
}

/// Data: required ends, MetaInfo's elements, values that are not examined, types known elsewhere.
#[test]
fn data_grammar() {
    let rows: [(&str, u8); 19] = [
        ("16 00 17 00", 0),
        ("14 00 15 00 16 00 17 00", 0),
        ("16 00", 5),
        ("17 00", 5),
        ("17 00 16 00", 5),
        ("15 00 14 00 16 00 17 00", 5),
        ("14 00 14 00 16 00 17 00", 5),
        ("14 05 18 03 FF FF FF 16 00 17 00", 0),
        ("14 02 18 00 16 00 17 00", 0),
        ("14 05 19 03 00 00 01 16 00 17 00", 5),
        ("14 02 19 00 16 00 17 00", 5),
        ("14 06 19 01 05 18 01 00 16 00 17 00", 5),
        ("14 06 19 01 05 1A 01 00 16 00 17 00", 0),
        ("14 02 1B 00 16 00 17 00", 5),
        ("14 02 20 00 16 00 17 00", 0),
        ("14 01 20 16 00 17 00", 5),
        ("15 02 FF FF 16 01 FF 17 01 FF", 0),
        ("22 00 16 00 17 00", 0),
        ("0A 04 01 02 03 04 16 00 17 00", 5),
    ];
    for (rest, expected) in rows {
        assert_eq!(answer(&data(rest)), expected, "{rest}");
    }
    assert_eq!(answer(&hex("06 06 07 00 16 00 17 00")), 0);
    assert_eq!(answer(&hex("06 04 16 00 17 00")), 5);
}

/// Names: component types, empty components, 5 beside 6, in Interest and Data.
#[test]
fn name_grammar() {
    let rows: [(&str, u8); 11] = [
        ("08 00", 0),
        ("03 00", 0),
        ("FD FF FF 00", 0),
        ("01 00", 6),
        ("02 01 61", 6),
        ("FE 00 01 00 00 00", 5),
        ("00 00", 5),
        ("01 00 00 00", 5),
        ("08 02 61", 5),
        ("08", 5),
        ("FD 00 08 01 61", 5),
    ];
    for (name, expected) in rows {
        let name = element(7, &hex(name));
        assert_eq!(answer(&element(5, &[&name[..], &hex(NONCE)].concat())), expected, "{name:x?}");
        assert_eq!(answer(&element(6, &[&name[..], &hex(SIGNED)].concat())), expected);
    }
}

/// A NackReason of 150 in a Nack, and an Lp element that is skipped.
const NACK_150: &str = "FD 03 20 05 FD 03 21 01 96";
const SKIPPED: &str = "FD 03 40 01 07";

/// LpPackets with a Nack: what it may hold, how often, over what, and without a Fragment.
#[test]
fn lp_nack_grammar() {
    let i = hex(I);
    let marked = interest("0A 04 01 02 03 04 24 00");
    let twice = format!("{NACK_150} {NACK_150}");
    let rows: Vec<(Vec<u8>, u8)> = vec![
        (lp(NACK_150, &i, ""), 0),
        (lp(&format!("{SKIPPED} {NACK_150} {SKIPPED} {SKIPPED}"), &i, ""), 0),
        (lp("FD 03 20 00", &i, ""), 0),
        (lp(NACK_150, &data(SIGNED), ""), 5),
        (lp(NACK_150, &marked, ""), 6),
        (lp(&twice, &i, ""), 5),
        (lp("FD 03 20 09 FD 03 21 01 96 FD 03 40 00", &i, ""), 5),
        (lp("FD 03 20 0A FD 03 21 01 96 FD 03 21 01 96", &i, ""), 5),
        (lp("FD 03 20 02 20 00", &i, ""), 5),
        (lp("FD 03 20 04 FD 03 21 00", &i, ""), 5),
        (lp("FD 03 20 07 FD 03 21 03 00 00 96", &i, ""), 5),
        (lp("FD 03 21 01 96", &i, ""), 6),
        (element(0x64, &hex(NACK_150)), 6),
        (element(0x64, &hex(&twice)), 5),
        (element(0x64, &hex("FD 03 20 04 FD 03 21 00")), 5),
    ];
    for (bytes, expected) in rows {
        assert_eq!(answer(&bytes), expected, "{bytes:02x?}");
    }
}

/// LpPackets without a Nack: what is skipped, what is 6, what the Fragment holds and what follows
/// it.
#[test]
fn lp_grammar() {
    let i = hex(I);
    let rows: Vec<(Vec<u8>, u8)> = vec![
        (lp("", &i, ""), 0),
        (lp("", &data(SIGNED), ""), 0),
        (lp(SKIPPED, &data(SIGNED), ""), 0),
        (lp("51 01 00", &i, ""), 6),
        (lp("FD 03 1F 00", &i, ""), 6),
        (lp("FD 03 C0 00", &i, ""), 6),
        (lp("FD 03 BC 00", &i, ""), 0),
        (lp("FD 03 22 00", &i, ""), 6),
        (lp("00 00", &i, ""), 5),
        (lp("FF 00 00 00 01 00 00 00 00 00", &i, ""), 5),
        (lp("", &i, SKIPPED), 5),
        (lp("", &i, "51 00"), 5),
        (lp("", &i, "50 00"), 5),
        (lp("51 00", &i[..5], ""), 5),
        (lp("", &[], ""), 5),
        (lp("", &lp("", &i, ""), ""), 5),
        (lp("", &[&i[..], &i[..]].concat(), ""), 5),
        (hex("64 00"), 6),
        (element(0x64, &hex(SKIPPED)), 6),
    ];
    for (bytes, expected) in rows {
        assert_eq!(answer(&bytes), expected, "{bytes:02x?}");
    }
}

/// "An outer type other than 0x05, 0x06 or 0x64 is 5", and "the packet at the last byte".
#[test]
fn outer_element() {
    let i = hex(I);
    assert_eq!(answer(&element(7, &i)), 5);
    assert_eq!(answer(&element(0x50, &i)), 5);
    assert_eq!(answer(&[&i[..], &[0]].concat()), 5);
    assert_eq!(answer(&[0]), 5);
}

/// 1,500 bytes bind what came in, before anything is read; names are measured last.
#[test]
fn sizes() {
    let filled = |total: usize| {
        let rest = hex(&format!("07 03 08 01 61 {NONCE}"));
        let filling = element(0x40, &vec![0; total - 4 - rest.len() - 4]);
        element(5, &[rest, filling].concat())
    };
    assert_eq!((filled(1_500).len(), answer(&filled(1_500))), (1_500, 0));
    assert_eq!((filled(1_501).len(), answer(&filled(1_501))), (1_501, 4));
    assert_eq!(answer(&vec![0; 1_501]), 4);
    assert_eq!(answer(&lp("", &filled(1_500), "")), 4);
    for (count, expected) in [(255, 0), (256, 4)] {
        let name = element(7, &name_of_bytes(count));
        assert_eq!(answer(&element(5, &[&name[..], &hex(NONCE)].concat())), expected);
        assert_eq!(answer(&element(6, &[&name[..], &hex(SIGNED)].concat())), expected);
    }
    let name = element(7, &name("/a").repeat(17));
    let long = [&name[..], &hex(NONCE)].concat();
    assert_eq!(answer(&element(5, &[&long[..], &hex("24 00")].concat())), 6);
    assert_eq!(answer(&element(5, &[&long[..], &hex("25 00")].concat())), 5);
    assert_eq!(answer(&lp("FD 03 20 00", &element(5, &long), "")), 4);
}

/// Lifetimes and freshness count up to their greatest; absent they are 4,000 and 0.
#[test]
fn numbers_as_they_count() {
    let lifetime = |rest: &str| match read(&interest(&format!("{NONCE} {rest}"))).unwrap().meaning {
        Meaning::Interest(interest) => interest.lifetime,
        _ => panic!("not an Interest"),
    };
    assert_eq!(lifetime(""), 4_000);
    assert_eq!(lifetime("0C 01 00"), 0);
    assert_eq!(lifetime("0C 02 EA 60"), 60_000);
    assert_eq!(lifetime("0C 02 EA 61"), 60_000);
    assert_eq!(lifetime("0C 08 FF FF FF FF FF FF FF FF"), 60_000);
    let freshness = |meta: &str| match read(&data(&format!("{meta} {SIGNED}"))).unwrap().meaning {
        Meaning::Data(data) => data.freshness,
        _ => panic!("not a Data"),
    };
    assert_eq!(freshness(""), 0);
    assert_eq!(freshness("14 00"), 0);
    assert_eq!(freshness("14 06 19 04 05 26 5B FF"), 86_399_999);
    assert_eq!(freshness("14 06 19 04 05 26 5C 00"), 86_400_000);
    assert_eq!(freshness("14 06 19 04 05 26 5C 01"), 86_400_000);
}

/// A reason is given back as sent, in any width.
#[test]
fn reason_as_sent() {
    let bytes = lp("FD 03 20 0C FD 03 21 08 00 00 00 00 00 00 00 32", &hex(I), "");
    assert!(matches!(read(&bytes).unwrap().meaning, Meaning::Nack { reason: 50, .. }));
    let bytes = lp("FD 03 20 06 FD 03 21 02 12 34", &hex(I), "");
    assert!(matches!(read(&bytes).unwrap().meaning, Meaning::Nack { reason: 0x1234, .. }));
}

/// What a Nack's reader must give back for what was written.
fn check_written_nack(reason: u64, interest: &Interest) {
    let written = write_nack(reason, &Asked::from(interest));
    assert!(written.len() <= 290 || reason > 255);
    let Meaning::Nack { reason: read_reason, interest: inner } = read(&written).unwrap().meaning
    else {
        panic!("not a Nack");
    };
    assert_eq!(read_reason, reason);
    assert_eq!(Asked::from(&inner), Asked::from(interest));
    assert_eq!((inner.lifetime, inner.hop_limit), (4_000, None));
}

/// What leaves reads back to the same meaning, the HopLimit one lower.
fn check_leaving(packet: &Packet, interest: &Interest) {
    let leaving = interest_as_it_leaves(packet, interest);
    assert_eq!(leaving.len(), packet.bare.len());
    let Meaning::Interest(again) = read(&leaving).unwrap().meaning else {
        panic!("not an Interest");
    };
    assert_eq!(Asked::from(&again), Asked::from(interest));
    assert_eq!(again.lifetime, interest.lifetime);
    let lowered = interest.hop_limit.map(|hop| hop.value.saturating_sub(1));
    assert_eq!(again.hop_limit.map(|hop| hop.value), lowered);
}

/// Over generated packets: what is written or leaves reads back, and the bare packet lies in the
/// input.
#[test]
fn generated_packets_read_back() {
    for seed in 0..SEEDS {
        let input = packet_gen::generate(seed);
        for bytes in packets_of(&input) {
            let Ok(packet) = read(bytes) else {
                continue;
            };
            assert_eq!(packet.bare, &bytes[packet.bare_at..][..packet.bare.len()]);
            match packet.meaning {
                Meaning::Interest(interest) => {
                    check_leaving(&packet, &interest);
                    check_written_nack(100, &interest);
                }
                Meaning::Data(data) => {
                    let again = read(data_as_it_leaves(&packet)).unwrap();
                    assert_eq!(again.meaning, Meaning::Data(data));
                }
                Meaning::Nack { reason, interest } => check_written_nack(reason, &interest),
            }
        }
    }
}

/// What 20 seeds of the generator reach.
#[derive(Default)]
struct Reached {
    packets: usize,
    bytes: usize,
    answers: BTreeMap<String, usize>,
    verdicts: BTreeMap<(usize, Verdict), usize>,
}

/// Counts one packet: its answer with the cause, and each row it met.
fn count(reached: &mut Reached, bytes: &[u8]) {
    let mut met = Vec::new();
    let result = read_watched(bytes, &mut |row, verdict| {
        met.push((TABLE.iter().position(|other| other == row).unwrap(), verdict));
    });
    let answer = match result {
        Ok(packet) => match packet.meaning {
            Meaning::Interest(_) => "0 Interest".to_string(),
            Meaning::Data(_) => "0 Data".to_string(),
            Meaning::Nack { .. } => "0 Nack".to_string(),
        },
        Err(refusal) => format!("{} {refusal:?}", refusal.number()),
    };
    *reached.answers.entry(answer).or_default() += 1;
    for row_and_verdict in met {
        *reached.verdicts.entry(row_and_verdict).or_default() += 1;
    }
    reached.packets += 1;
    reached.bytes += bytes.len();
}

/// Twenty seeds give 20,000 packets and reach every answer and every row, either way of each rule.
#[test]
fn generated_packets_reach_everything() {
    let mut reached = Reached::default();
    for seed in 0..SEEDS {
        let input = packet_gen::generate(seed);
        assert!(input.len() <= INPUT_BYTES);
        let packets = packets_of(&input);
        assert!(packets.len() >= 1_000);
        packets.into_iter().for_each(|bytes| count(&mut reached, bytes));
    }
    assert!(reached.packets >= 20_000, "{} packets", reached.packets);
    assert!((30..=60).contains(&(reached.bytes / reached.packets)));
    let wanted = [
        "0 Interest",
        "0 Data",
        "0 Nack",
        "4 PacketTooLong",
        "4 NameOfTooManyComponents",
        "4 NameOfTooManyBytes",
        "5 Malformed",
        "6 Unsupported",
    ];
    for answer in wanted {
        let times = reached.answers.get(answer).copied().unwrap_or(0);
        assert!(times >= 20, "{answer}: {times} times");
    }
    let good: usize = wanted[..3].iter().map(|answer| reached.answers[*answer]).sum();
    assert!(3 * good >= reached.packets, "{good} good of {}", reached.packets);
    check_rows(&reached);
}

/// Every row is accepted; every rule that can be broken is broken: length, and order where there is
/// one.
fn check_rows(reached: &Reached) {
    for (at, row) in TABLE.iter().enumerate() {
        let choice = matches!(row.parent, Parent::Input | Parent::Fragment);
        let mut wanted = vec![Verdict::Good];
        if choice || row.length != Length::Any {
            wanted.push(Verdict::BadLength);
        }
        if !choice && row.kind != FRAGMENT {
            wanted.push(Verdict::OutOfPlace);
        }
        for verdict in wanted {
            assert!(reached.verdicts.contains_key(&(at, verdict)), "never {verdict:?}: {row:?}");
        }
    }
}

/// Noise of every length is answered.
#[test]
fn noise_is_answered() {
    let mut prng = Prng::new(21);
    for round in 0..2_000 {
        let noise = prng.bytes(round % 70);
        assert!([0, 4, 5, 6].contains(&answer(&noise)));
    }
}

/// The line format: the example line, each kind, an unreadable group, an input too long.
#[test]
fn packet_lines() {
    let mut input = Vec::new();
    write_group(&hex(I), &mut input);
    write_group(&interest("21 00 12 00 0A 04 01 02 03 04 22 01 00"), &mut input);
    write_group(&hex("06 06 07 00 16 00 17 00"), &mut input);
    write_group(&lp("FD 03 20 05 FD 03 21 01 96", &hex(I), ""), &mut input);
    write_group(&[], &mut input);
    let end = input.len();
    input.extend([3, 0, 0]);
    let expected = format!(
        "1 0 1 080161 0 0 01020304 4000 -\n2 0 1 080161 1 1 01020304 4000 0\n3 0 2 - 0\n\
         4 0 3 150 080161 0 0 01020304\n5 5\nbad {end}\n"
    );
    assert_eq!(run(&input), expected);
    assert_eq!(run(&[0; INPUT_BYTES]).lines().count(), INPUT_BYTES);
    assert_eq!(run(&[0; INPUT_BYTES + 1]), "too long\n");
    assert_eq!(run(&[]), "");
}

/// A tape's numbers: written and read back; not shortest, cut and over 64 bits refused.
#[test]
fn tape_numbers() {
    let mut prng = Prng::new(22);
    for _ in 0..2_000 {
        let value = prng.any_width();
        let mut bytes = Vec::new();
        write_tape_number(value, &mut bytes);
        assert_eq!(read_tape_number(&bytes, 0), Some((value, bytes.len())));
        assert_eq!(read_tape_number(&bytes[..bytes.len() - 1], 0), None);
    }
    assert_eq!(read_tape_number(&[0x84, 0x20], 0), Some((4_100, 2)));
    assert_eq!(read_tape_number(&[0x80, 0x00], 0), None);
    let ones = [0xFF; 9];
    assert_eq!(read_tape_number(&[&ones[..], &[1]].concat(), 0), Some((u64::MAX, 10)));
    assert_eq!(read_tape_number(&[&ones[..], &[2]].concat(), 0), None);
    assert_eq!(read_tape_number(&[&ones[..], &[0x81, 1]].concat(), 0), None);
}
