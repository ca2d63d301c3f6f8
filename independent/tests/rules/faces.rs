//! Opening and closing faces.

use crate::common::bench::{asks, lasting, req, Bench, FAR, P2P};

/// 14 before 15; a refused opening leaves the face closed.
#[test]
fn opening() {
    let mut b = Bench::new();
    assert_eq!(b.open(0, 1, 2, 0), 15);
    assert_eq!(b.open(0, 1, 0, 3), 15);
    assert_eq!(b.open(0, 1, 1 << 40, 1 << 40), 15);
    assert_eq!(b.close(0, 1), 3);
    assert_eq!(b.open(0, 1, 0, 2), 0);
    assert_eq!(b.open(0, 1, 9, 9), 14);
}

/// "Its request ends; an entry without requests leaves. Its next hops go too."
#[test]
fn closing() {
    let mut b = Bench::plain(3);
    b.ask(0, 1, &req("/a", 1));
    b.ask(0, 1, &req("/b", 1));
    b.ask(0, 2, &req("/b", 2));
    assert_eq!(b.close(10, 1), 0);
    assert_eq!(b.counts(1), [2, 0, 0, 0, 2, 0, 0]);
    assert_eq!(b.node.pending().entries.len(), 1);
    assert_eq!(b.ask(10, 2, &req("/a", 1)).0, 9, "the entry left with its nonce");
    assert_eq!(b.close(20, 3), 0);
    assert_eq!(b.ask(20, 2, &req("/c", 1)).0, 10);
    assert_eq!(b.open(30, 3, FAR, P2P), 0);
    assert_eq!(b.ask(30, 2, &req("/c", 1)).0, 10, "hops must be added again");
    assert_eq!(b.hop(30, 3, 0, ""), 0);
    assert_eq!(b.ask(30, 2, &req("/c", 1)).0, 0);
}

/// "The face's out-record goes, its fingerprint joining the dead list", before the entry's other
/// ones.
#[test]
fn closing_order_in_the_ring() {
    let mut b = Bench::plain(5);
    b.hop(0, 4, 20, "");
    b.hop(0, 3, 0, "");
    b.ask(0, 4, &req("/a", 1));
    b.ask(100, 4, &req("/a", 2));
    b.ask(100, 1, &req("/b", 3));
    b.ask(150, 1, &lasting("/a", 4, 60));
    assert_eq!(b.ask(200, 1, &lasting("/a", 5, 1)), asks(4));
    b.tick(201);
    assert_eq!(b.close(300, 4), 0);
    for n in 0..254 {
        b.ask(300, 1, &lasting(&format!("/{n}"), 9, 0));
    }
    b.tick(300);
    assert_eq!(
        b.ask(300, 1, &lasting("/a", 5, 0)).0,
        0,
        "face 4's line, the oldest, is overwritten"
    );
    assert_eq!(b.ask(300, 1, &lasting("/a", 2, 0)).0, 9, "face 5's line came last");
}
