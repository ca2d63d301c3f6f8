//! The Interest: opening and renewing, which hop is eligible and which is taken, what leaves.

use crate::common::bench::{
    asks, gives, hopping, interest_sent, lasting, nack_sent, quiet, refuses, req, Bench, ADHOC,
    FAR, LOCAL, MULTI, P2P,
};
use independent::build::{in_lp, Request};

/// "Renew it with the new nonce and expiry (a renewal is the same request)", also an earlier one.
#[test]
fn renewal() {
    let mut b = Bench::plain(2);
    b.ask(0, 1, &req("/a", 1));
    b.ask(10, 1, &lasting("/a", 2, 20));
    assert_eq!(b.counts(1), [1, 0, 0, 0, 0, 0, 1]);
    b.tick(30);
    assert_eq!(b.counts(1), [1, 0, 0, 1, 0, 0, 0]);
}

/// "NO_ROUTE exactly when there is none or no next hop of it is eligible"; no shorter route stands
/// in.
#[test]
fn no_route() {
    let mut b = Bench::plain(2);
    b.route(0, 1, "/a/b");
    assert_eq!(b.ask(0, 1, &req("/a/b/c", 1)), refuses(10, 1));
    assert_eq!(nack_sent(b.sent(0)), (150, [0, 0, 0, 1]));
    assert_eq!(b.ask(0, 2, &req("/a", 1)), refuses(10, 2), "the only hop is the arrival face");
    b.drop_route(0, "");
    assert_eq!(b.ask(0, 1, &req("/x", 1)), refuses(10, 1));
    b.open(0, 3, FAR, MULTI);
    assert_eq!(b.ask(0, 3, &req("/x", 1)), quiet(10));
}

/// "The cheapest eligible hop, ties to the lower face."
#[test]
fn cheapest_hop() {
    let mut b = Bench::plain(5);
    b.hop(0, 4, 5, "");
    b.hop(0, 3, 5, "");
    b.hop(0, 2, 6, "");
    assert_eq!(b.ask(0, 1, &req("/a", 1)), asks(3));
    b.hop(0, 2, 5, "");
    assert_eq!(b.ask(0, 1, &req("/b", 1)), asks(2));
    b.hop(0, 2, 65_535, "");
    assert_eq!(b.ask(0, 3, &req("/c", 1)), asks(4));
}

/// "Local if HopLimit is present and is 0 after lowering."
#[test]
fn hop_limit_one_needs_a_local_hop() {
    let mut b = Bench::plain(2);
    assert_eq!(b.ask(0, 1, &hopping("/a", 1, 1)), refuses(10, 1));
    b.open(0, 3, LOCAL, P2P);
    b.hop(0, 3, 60_000, "");
    assert_eq!(b.ask(0, 1, &hopping("/a", 1, 1)), asks(3));
    assert_eq!(interest_sent(b.sent(0)).0, Some(0));
}

/// "Local for /localhop unless a live request of the entry, this one included, is from a local
/// face."
#[test]
fn localhop() {
    let mut b = Bench::plain(3);
    b.open(0, 4, LOCAL, P2P);
    assert_eq!(b.ask(0, 1, &req("/localhop/a", 1)), refuses(10, 1));
    assert_eq!(b.ask(0, 4, &lasting("/localhop/a", 2, 0)), asks(3));
    let mut b = Bench::plain(3);
    b.open(0, 4, LOCAL, P2P);
    b.open(0, 5, LOCAL, P2P);
    b.hop(0, 4, 0, "");
    assert_eq!(b.ask(0, 1, &req("/localhop/a", 1)), asks(4));
    assert_eq!(b.ask(200, 2, &req("/localhop/a", 2)), asks(4));
    assert_eq!(b.ask(400, 5, &req("/localhop/a", 3)), asks(3));
    assert_eq!(b.ask(600, 2, &req("/localhop/a", 4)), asks(4), "4 was sent to at 200, 3 at 400");
    assert_eq!(b.ask(800, 2, &req("/localhop/a", 5)), asks(3));
}

/// The arrival face is no hop unless it is ad hoc.
#[test]
fn back_out_of_an_ad_hoc_face() {
    let mut b = Bench::new();
    b.open(0, 1, FAR, ADHOC);
    b.route(0, 1, "");
    b.hop(0, 1, 0, "");
    assert_eq!(b.ask(0, 1, &req("/a", 1)), asks(1));
    assert_eq!(b.data(10, 1, "/a"), gives(&[1]), "answered, out of the arrival face");
    assert_eq!(b.counts(1), [1, 1, 0, 0, 0, 0, 0]);
}

/// "If the newest out-record was sent under 100 ms ago, send nothing", then unused hops, then the
/// earliest.
#[test]
fn retransmission_goes_round() {
    let mut b = Bench::plain(4);
    b.hop(0, 3, 20, "");
    b.hop(0, 2, 30, "");
    assert_eq!(b.ask(0, 1, &req("/a", 1)), asks(4));
    assert_eq!(b.ask(99, 1, &req("/a", 2)), quiet(0));
    assert_eq!(b.ask(100, 1, &req("/a", 3)), asks(3));
    assert_eq!(b.ask(199, 1, &req("/a", 4)), quiet(0));
    assert_eq!(b.ask(200, 1, &req("/a", 5)), asks(2));
    assert_eq!(b.ask(300, 1, &req("/a", 6)), asks(4));
    assert_eq!(b.ask(400, 1, &req("/a", 7)), asks(3));
}

/// A Nacked out-record suppresses like any other.
#[test]
fn nacked_out_record_suppresses() {
    let mut b = Bench::plain(3);
    b.open(0, 4, FAR, MULTI);
    b.hop(0, 2, 50, "");
    b.ask(0, 4, &req("/a", 1));
    assert_eq!(b.nack(10, 3, 150, &req("/a", 1)), quiet(0));
    assert_eq!(b.ask(50, 1, &req("/a", 2)), quiet(0));
    assert_eq!(b.counts(1)[6], 1, "the newcomer waits");
    assert_eq!(b.ask(100, 1, &req("/a", 3)), asks(2));
}

/// Entry present without route or eligible hop: answer 0, opened, nothing sent.
#[test]
fn entry_present_without_route() {
    let mut b = Bench::plain(3);
    b.ask(0, 1, &req("/a", 1));
    b.drop_route(10, "");
    assert_eq!(b.ask(200, 2, &req("/a", 2)), quiet(0));
    assert_eq!(b.counts(2), [1, 0, 0, 0, 0, 0, 1]);
    assert_eq!(b.data(300, 3, "/a"), gives(&[1, 2]));
}

/// Entry without any out-record: sends at once.
#[test]
fn entry_without_out_record() {
    let mut b = Bench::plain(3);
    b.ask(0, 1, &req("/a", 1));
    b.close(10, 3);
    b.open(10, 3, FAR, P2P);
    b.hop(10, 3, 0, "");
    assert_eq!(b.ask(11, 2, &req("/a", 2)), asks(3));
}

/// Sending to a face that has a request in the entry is allowed.
#[test]
fn sends_to_an_asking_face() {
    let mut b = Bench::plain(2);
    b.hop(0, 1, 0, "");
    assert_eq!(b.ask(0, 1, &req("/a", 1)), asks(2));
    assert_eq!(b.ask(200, 2, &req("/a", 2)), asks(1));
}

/// "The Interest leaves as it came without its Lp header, HopLimit one lower": the bytes that just
/// came.
#[test]
fn interest_leaves_as_it_came() {
    let mut b = Bench::plain(2);
    let first = hopping("/a", 1, 9);
    assert_eq!(b.packet(0, 1, &in_lp(&first.interest())), asks(2));
    assert_eq!(b.sent(0), Request { hop_limit: Some(8), ..first }.interest());
    let second = Request { lifetime: Some(77), ..hopping("/a", 2, 5) };
    assert_eq!(b.ask(100, 1, &second), asks(2));
    assert_eq!(b.sent(0), Request { hop_limit: Some(4), ..second }.interest());
}
