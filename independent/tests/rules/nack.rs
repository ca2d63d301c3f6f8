//! The Nack and the requests it ends.

use crate::common::bench::{
    asks, gives, nack_sent, prefix, quiet, refuses, req, Bench, FAR, MULTI,
};

/// "STALE_NACK exactly when the face is not point-to-point, or has no out-record with this nonce in
/// that entry."
#[test]
fn stale_nack() {
    let mut b = Bench::plain(3);
    b.ask(0, 1, &req("/a", 1));
    assert_eq!(b.nack(0, 3, 150, &req("/a", 2)), quiet(13));
    assert_eq!(b.nack(0, 2, 150, &req("/a", 1)), quiet(13));
    assert_eq!(b.nack(0, 3, 150, &prefix("/a", 1)), quiet(13));
    assert_eq!(b.nack(0, 3, 150, &req("/b", 1)), quiet(13));
    assert_eq!(b.nack(0, 3, 150, &req("/a", 1)), refuses(0, 1));
    let mut b = Bench::plain(2);
    b.open(0, 3, FAR, MULTI);
    b.hop(0, 3, 0, "");
    b.ask(0, 1, &req("/a", 1));
    assert_eq!(b.nack(0, 3, 150, &req("/a", 1)), quiet(13));
}

/// "If a Nack leaves all out-records Nacked, each point-to-point request ends by a Nack with its
/// own nonce and the smallest nonzero reason."
#[test]
fn nacks_end_requests() {
    let mut b = Bench::plain(4);
    b.hop(0, 3, 20, "");
    b.ask(0, 1, &req("/a", 1));
    b.ask(100, 2, &req("/a", 2));
    assert_eq!(b.nack(110, 4, 150, &req("/a", 1)), quiet(0));
    assert_eq!(b.nack(120, 3, 50, &req("/a", 2)), (0, vec![(1, 3), (2, 3)]));
    assert_eq!(nack_sent(b.sent(0)), (50, [0, 0, 0, 1]));
    assert_eq!(nack_sent(b.sent(1)), (50, [0, 0, 0, 2]));
    assert_eq!(b.counts(1), [1, 0, 1, 0, 0, 0, 0]);
    assert!(b.node.pending().entries.is_empty());
    assert_eq!(b.ask(130, 1, &req("/a", 2)).0, 9, "the nonces are dead");
}

/// "Reasons other than 50, 100, 150 become 0, still Nacked"; a zero gives way to any nonzero
/// reason.
#[test]
fn reasons() {
    for (first, second, expected) in
        [(7, 0, 0), (7, 100, 100), (150, 7, 150), (150, 100, 100), (151, 1 << 40, 0)]
    {
        let mut b = Bench::plain(3);
        b.hop(0, 2, 20, "");
        b.ask(0, 1, &req("/a", 1));
        b.ask(100, 1, &req("/a", 2));
        assert_eq!(b.nack(110, 3, first, &req("/a", 1)), quiet(0));
        assert_eq!(b.nack(120, 2, second, &req("/a", 2)), refuses(0, 1));
        assert_eq!(nack_sent(b.sent(0)), (expected, [0, 0, 0, 2]));
    }
}

/// "Others stay open": requests of other links; a second Nack is not stale and ends newcomers.
#[test]
fn nack_and_other_links() {
    let mut b = Bench::plain(3);
    b.open(0, 4, FAR, MULTI);
    b.ask(0, 1, &req("/a", 1));
    b.ask(10, 4, &req("/a", 2));
    assert_eq!(b.nack(20, 3, 150, &req("/a", 1)), refuses(0, 1));
    assert_eq!(b.counts(4), [1, 0, 0, 0, 0, 0, 1]);
    assert_eq!(b.ask(30, 2, &req("/a", 3)), quiet(0));
    assert_eq!(b.nack(40, 3, 50, &req("/a", 1)), refuses(0, 2));
    assert_eq!(nack_sent(b.sent(0)), (50, [0, 0, 0, 3]));
    assert_eq!(b.data(50, 3, "/a"), gives(&[4]));
}

/// A Nack goes back also to the face it came from, if that has a request too.
#[test]
fn nack_to_its_own_face() {
    let mut b = Bench::plain(2);
    b.ask(0, 1, &req("/a", 1));
    b.ask(10, 2, &req("/a", 2));
    assert_eq!(b.nack(20, 2, 150, &req("/a", 1)), (0, vec![(1, 3), (2, 3)]));
}

/// A send to a Nacked hop clears its reason.
#[test]
fn send_clears_the_reason() {
    let mut b = Bench::plain(3);
    b.open(0, 4, FAR, MULTI);
    b.hop(0, 2, 20, "");
    b.ask(0, 4, &req("/a", 1));
    b.ask(100, 4, &req("/a", 2));
    b.nack(110, 3, 150, &req("/a", 1));
    assert_eq!(b.ask(200, 1, &req("/a", 3)), asks(3));
    assert_eq!(b.nack(210, 2, 150, &req("/a", 2)), quiet(0), "face 3 is asked anew");
    assert_eq!(b.nack(220, 3, 150, &req("/a", 1)), quiet(13), "its nonce is 3 now");
    assert_eq!(b.nack(220, 3, 150, &req("/a", 3)), refuses(0, 1));
}

/// Closing a face that leaves only Nacked out-records Nacks nothing.
#[test]
fn closing_nacks_nothing() {
    let mut b = Bench::plain(3);
    b.hop(0, 2, 20, "");
    b.ask(0, 1, &req("/a", 1));
    b.ask(100, 1, &req("/a", 2));
    b.nack(110, 3, 150, &req("/a", 1));
    assert_eq!(b.close(120, 2), 0);
    assert_eq!(b.counts(1), [1, 0, 0, 0, 0, 0, 1]);
}
