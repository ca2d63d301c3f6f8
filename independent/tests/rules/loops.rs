//! The Interest that is a LOOP.

use crate::common::bench::{
    asks, fresh, gives, nack_sent, prefix, quiet, refuses, req, Bench, ADHOC, FAR, MULTI,
};

/// The entry has the nonce in another face's in-record or in any out-record.
#[test]
fn loop_by_entry() {
    let mut b = Bench::plain(3);
    b.ask(0, 1, &req("/a", 1));
    assert_eq!(b.ask(10, 2, &req("/a", 1)), refuses(9, 2));
    assert_eq!(nack_sent(b.sent(0)), (100, [0, 0, 0, 1]));
    assert_eq!(b.ask(20, 1, &req("/a", 2)), quiet(0));
    assert_eq!(b.ask(30, 1, &req("/a", 1)), refuses(9, 1), "its own in-record has nonce 2 now");
}

/// "The entry does not count if the face is point-to-point and its own in-record has this nonce."
#[test]
fn own_nonce_on_point_to_point() {
    let mut b = Bench::plain(2);
    b.ask(0, 1, &req("/a", 1));
    assert_eq!(b.ask(100, 1, &req("/a", 1)), asks(2));
    assert_eq!(b.counts(1), [1, 0, 0, 0, 0, 0, 1]);
    b.tick(4_099);
    assert_eq!(b.counts(1)[6], 1, "renewed at 100");
}

/// Own nonce again on multi-access or ad hoc is LOOP, without a Nack, and renews nothing.
#[test]
fn own_nonce_elsewhere() {
    for link in [MULTI, ADHOC] {
        let mut b = Bench::plain(2);
        b.open(0, 3, FAR, link);
        b.ask(0, 3, &req("/a", 1));
        assert_eq!(b.ask(100, 3, &req("/a", 1)), quiet(9));
        b.tick(4_000);
        assert_eq!(b.counts(3), [1, 0, 0, 1, 0, 0, 0]);
    }
}

/// The dead list always counts: closing the upstream buries the nonce while the request stays open.
#[test]
fn dead_list_beats_retransmission() {
    let mut b = Bench::plain(2);
    b.ask(0, 1, &req("/a", 1));
    b.close(50, 2);
    assert_eq!(b.ask(60, 1, &req("/a", 1)), refuses(9, 1));
    assert_eq!(b.counts(1), [1, 0, 0, 0, 0, 0, 1]);
}

/// An entry of other flags is not looked at; the dead list knows no flags; LOOP comes before the
/// store.
#[test]
fn loop_and_flags() {
    let mut b = Bench::plain(3);
    b.ask(0, 1, &req("/a", 1));
    assert_eq!(b.ask(0, 2, &prefix("/a", 1)), asks(3));
    assert_eq!(b.data(10, 3, "/a"), gives(&[1, 2]));
    assert_eq!(b.ask(20, 2, &fresh("/a", 1)), refuses(9, 2));
    assert_eq!(b.ask(20, 2, &req("/a", 1)), refuses(9, 2), "the store could answer");
    assert_eq!(b.ask(20, 2, &req("/a", 2)), gives(&[2]));
}

/// Error to shut out: a refusal's Nack is not the end of that face's older open request.
#[test]
fn refusals_nack_ends_nothing() {
    let mut b = Bench::plain(3);
    b.ask(0, 1, &req("/a", 1));
    b.ask(0, 2, &req("/a", 2));
    assert_eq!(b.ask(10, 2, &req("/a", 1)), refuses(9, 2));
    assert_eq!(b.counts(2), [1, 0, 0, 0, 0, 0, 1]);
    assert_eq!(b.data(20, 3, "/a"), gives(&[1, 2]));
    assert_eq!(b.counts(2), [1, 1, 0, 0, 0, 0, 0]);
}
