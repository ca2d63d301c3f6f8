//! Ageing and the dead nonce list.

use crate::common::bench::{asks, lasting, quiet, refuses, req, Bench};

/// "P: arrival 100, lifetime 4,000: open at 4,099, expired at 4,100."
#[test]
fn expiry() {
    let mut b = Bench::plain(2);
    b.ask(100, 1, &req("/a", 1));
    b.tick(4_099);
    assert_eq!(b.counts(1), [1, 0, 0, 0, 0, 0, 1]);
    b.tick(4_100);
    assert_eq!(b.counts(1), [1, 0, 0, 1, 0, 0, 0]);
}

/// "One with lifetime 0 counts as live and open through its own event, and ends at the next
/// ageing."
#[test]
fn lifetime_zero() {
    let mut b = Bench::plain(2);
    assert_eq!(b.ask(100, 1, &lasting("/a", 1, 0)), asks(2));
    assert_eq!(b.counts(1)[6], 1);
    b.close(100, 9);
    assert_eq!(b.counts(1)[6], 1);
    assert_eq!(b.data(100, 2, "/a"), quiet(12));
    assert_eq!(b.counts(1), [1, 0, 0, 1, 0, 0, 0]);
}

/// A request that expires in the event that repeats it: one expiry, then a dead line made now
/// (LOOP).
#[test]
fn expiry_in_the_repeating_event() {
    let mut b = Bench::plain(2);
    b.ask(100, 1, &req("/a", 1));
    assert_eq!(b.ask(50_000, 1, &req("/a", 1)), refuses(9, 1));
    assert_eq!(b.ask(50_000, 1, &req("/a", 2)), asks(2));
    assert_eq!(b.counts(1), [2, 0, 0, 1, 0, 0, 1]);
}

/// "A line counts while now minus its time is under 6,000."
#[test]
fn dead_line_lasts_6000() {
    for (time, expected) in [(10_099, 9), (10_100, 0)] {
        let mut b = Bench::plain(2);
        b.ask(100, 1, &req("/a", 1));
        b.tick(4_100);
        assert_eq!(b.ask(time, 1, &req("/a", 1)).0, expected);
    }
}

/// "The 257th overwrites the oldest."
#[test]
fn dead_ring_of_256() {
    let mut b = Bench::plain(2);
    let request = |n: u64| lasting(&format!("/{n}"), 1, 0);
    for n in 0..257 {
        assert_eq!(b.ask(n, 1, &request(n)), asks(2));
    }
    b.tick(257);
    assert_eq!(b.ask(257, 1, &request(1)).0, 9);
    assert_eq!(b.ask(257, 1, &request(256)).0, 9);
    assert_eq!(b.ask(257, 1, &request(0)).0, 0);
}

/// The in-record of an expired request goes, while the entry lives on.
#[test]
fn expired_in_record_makes_no_loop() {
    let mut b = Bench::plain(3);
    b.ask(0, 1, &lasting("/a", 1, 50));
    b.ask(10, 2, &lasting("/a", 2, 5_000));
    b.tick(60);
    assert_eq!(b.ask(70, 2, &req("/a", 1)).0, 9, "the out-record still has nonce 1");
    assert_eq!(b.ask(200, 2, &req("/a", 3)), asks(3));
    assert_eq!(b.ask(210, 1, &req("/a", 1)), quiet(0));
}

/// The nonce of an out-record that a second send overwrote never joins the dead list.
#[test]
fn overwritten_out_record_is_forgotten() {
    let mut b = Bench::plain(2);
    b.ask(0, 1, &lasting("/a", 1, 500));
    assert_eq!(b.ask(100, 1, &lasting("/a", 2, 100)), asks(2));
    b.tick(200);
    assert_eq!(b.ask(200, 1, &req("/a", 2)).0, 9);
    assert_eq!(b.ask(200, 1, &req("/a", 1)).0, 0);
}
