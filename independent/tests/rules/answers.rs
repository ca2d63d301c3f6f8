//! Answer numbers and the order of checks.

use crate::common::bench::{
    asks, gives, hopping, interest_sent, quiet, refuses, req, Bench, FAR, LOCAL, P2P,
};
use independent::answer::Answer;
use independent::build::{name, Request};
use independent::node::{Event, Node};
use independent::packet::Refusal;
use independent::sizes::{FACES, LEAST_BUFFER};

/// Document 01's numbers, and the reader's refusals by them.
#[test]
fn numbers() {
    use Answer::*;
    let listed = [
        Done,
        Clock,
        SmallBuffer,
        BadFace,
        TooLong,
        Malformed,
        Unsupported,
        HopLimit,
        Scope,
        Loop,
        NoRoute,
        NoRoom,
        Unsolicited,
        StaleNack,
        FaceOpen,
        BadSetting,
        TableFull,
    ];
    assert_eq!(listed.map(Answer::number), std::array::from_fn(|place| place as u8));
    assert_eq!(Refusal::PacketTooLong.number(), 4);
    assert_eq!(Refusal::NameOfTooManyComponents.number(), 4);
    assert_eq!(Refusal::NameOfTooManyBytes.number(), 4);
    assert_eq!(Refusal::Malformed.number(), 5);
    assert_eq!(Refusal::Unsupported.number(), 6);
}

/// "Time below the last accepted time, or above 2^53"; refusals 4 to 16 move the last time.
#[test]
fn clock() {
    let mut b = Bench::plain(2);
    assert_eq!(b.tick(100), 0);
    assert_eq!(b.tick(99), 1);
    assert_eq!(b.tick(100), 0);
    assert_eq!(b.tick((1 << 53) + 1), 1);
    assert_eq!(b.packet(200, 1, &[5]), quiet(5));
    assert_eq!(b.tick(199), 1);
    assert_eq!(b.tick(1 << 53), 0);
    assert_eq!(b.tick(u64::MAX), 1);
}

/// "Output buffer under 8,192": every event, before the face is looked at, after the clock.
#[test]
fn small_buffer() {
    let mut node = Node::new();
    let mut small = vec![7; LEAST_BUFFER - 1];
    let before = node.clone();
    for event in [Event::Tick { time: 5 }, Event::Close { time: 5, face: 99 }] {
        assert_eq!(node.step(&event, &mut small).answer.number(), 2);
    }
    assert_eq!(node.step(&Event::Tick { time: u64::MAX }, &mut small).answer.number(), 1);
    assert_eq!(node, before);
    assert_eq!(small, vec![7; LEAST_BUFFER - 1]);
}

/// "Number not 1..16; or not open, unless the event opens it"; 3 before anything of the event's
/// own.
#[test]
fn bad_face() {
    let mut b = Bench::plain(2);
    for face in [0, FACES as u64 + 1, 1 << 60] {
        assert_eq!(b.open(0, face, FAR, P2P), 3);
        assert_eq!(b.close(0, face), 3);
    }
    for face in [3, FACES as u64] {
        assert_eq!(b.packet(0, face, &[0; 2_000]), quiet(3));
        assert_eq!(b.hop(0, face, 1 << 40, "/none"), 3);
        assert_eq!(b.drop_hop(0, face, "/none"), 3);
        assert_eq!(b.close(0, face), 3);
    }
    assert_eq!(b.open(0, FACES as u64, FAR, P2P), 0);
}

/// "Answers 1 to 3 change nothing"; they do not age.
#[test]
fn first_answers_do_not_age() {
    let mut b = Bench::plain(2);
    b.ask(100, 1, &req("/a", 1));
    b.close(10_000, 9);
    assert_eq!(b.counts(1), [1, 0, 0, 0, 0, 0, 1]);
    assert_eq!(b.packet(10_000, 1, &[5]), quiet(5));
    assert_eq!(b.counts(1), [1, 0, 0, 1, 0, 0, 0]);
}

/// The reader's refusals reach the event's answer, after ageing.
#[test]
fn packets_turned_away() {
    let mut b = Bench::plain(2);
    assert_eq!(b.packet(0, 1, &[0; 1_501]), quiet(4));
    assert_eq!(b.packet(0, 1, &[]), quiet(5));
    assert_eq!(b.packet(0, 1, &[0x64, 0]), quiet(6));
    assert_eq!(b.ask(0, 1, &Request::new(&name("/l").repeat(17), 1)), quiet(4));
}

/// A command's prefix: 5, 6, then name size (4), before 15 and 10; 1,500 bytes do not bind it.
#[test]
fn prefixes() {
    let mut b = Bench::plain(2);
    let rows: [(Vec<u8>, u8); 5] = [
        (vec![8, 2, 1], 5),
        (vec![1, 0], 6),
        (name("/l").repeat(17), 4),
        (vec![8; 1_501], 5),
        ([vec![8, 253, 1, 0], vec![0; 256]].concat(), 4),
    ];
    for (prefix, expected) in rows {
        let (time, face, prefix) = (0, 1, &prefix[..]);
        assert_eq!(b.put(Event::SetRoute { time, class: 0, prefix }).0, expected);
        assert_eq!(b.put(Event::DropRoute { time, prefix }).0, expected);
        assert_eq!(b.put(Event::AddHop { time, face, cost: 1 << 20, prefix }).0, expected);
        assert_eq!(b.put(Event::DropHop { time, face, prefix }).0, expected);
    }
    assert_eq!(b.put(Event::SetRoute { time: 0, class: 1, prefix: &name("/l").repeat(16) }).0, 0);
}

/// "Interest with HopLimit 0, not inside a Nack", before scope.
#[test]
fn hop_limit_zero() {
    let mut b = Bench::plain(2);
    assert_eq!(b.ask(0, 1, &hopping("/a", 1, 0)), quiet(7));
    assert_eq!(b.ask(0, 1, &hopping("/localhost/a", 1, 0)), quiet(7));
    assert_eq!(b.ask(0, 1, &hopping("/a", 1, 2)), asks(2));
    assert_eq!(interest_sent(b.sent(0)).0, Some(1));
}

/// SCOPE for Interest, Data and Nack; 8 before 13 and 12.
#[test]
fn scope() {
    let mut b = Bench::plain(2);
    let request = req("/localhost/a", 1);
    assert_eq!(b.ask(0, 1, &request), quiet(8));
    assert_eq!(b.data(0, 1, "/localhost/a"), quiet(8));
    assert_eq!(b.nack(0, 1, 150, &request), quiet(8));
    b.open(0, 3, LOCAL, P2P);
    b.open(0, 4, LOCAL, P2P);
    assert_eq!(b.ask(0, 3, &request), refuses(10, 3));
    b.hop(0, 4, 60_000, "");
    assert_eq!(b.ask(0, 3, &request), asks(4));
    assert_eq!(b.data(0, 4, "/localhost/a"), gives(&[3]));
    assert_eq!(b.nack(0, 4, 150, &request), quiet(13));
}
