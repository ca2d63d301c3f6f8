//! The store.

use crate::common::bench::{asks, fresh, gives, prefix, req, Bench, FAR, MULTI};
use independent::build::{data, in_lp, name, Request};
use independent::packet::read;

/// MustBeFresh is not asked of Data that arrives; in the store "only while now < storing time +
/// freshness".
#[test]
fn freshness() {
    let mut b = Bench::plain(2);
    b.ask(0, 1, &fresh("/a", 1));
    assert_eq!(b.fresh(100, 2, "/a", Some(50)), gives(&[1]));
    assert_eq!(b.ask(149, 1, &fresh("/a", 2)), gives(&[1]));
    assert_eq!(b.ask(150, 1, &fresh("/a", 3)), asks(2));
    assert_eq!(b.ask(150, 1, &req("/a", 4)), gives(&[1]));
}

/// A hit needs no route, opens nothing, goes to any link type, and gives the bytes without Lp
/// header.
#[test]
fn store_hit() {
    let mut b = Bench::plain(2);
    b.open(0, 3, FAR, MULTI);
    b.ask(0, 1, &req("/a", 1));
    let bytes = data(&name("/a"), None, 5);
    assert_eq!(b.packet(0, 2, &in_lp(&bytes)), gives(&[1]));
    assert_eq!(b.sent(0), bytes);
    b.drop_route(0, "");
    assert_eq!(b.ask(0, 3, &req("/a", 2)), gives(&[3]));
    assert_eq!(b.sent(0), bytes);
    assert_eq!(b.counts(3), [0; 7]);
}

/// "With CanBePrefix also any name extending it"; "the first in canonical order", of the fresh
/// ones.
#[test]
fn store_order() {
    let mut b = Bench::plain(2);
    for (text, freshness) in [("/a/bb", 50), ("/a/c", 50), ("/a/b", 5), ("/a", 1)] {
        b.ask(0, 1, &req(text, 1));
        assert_eq!(b.fresh(0, 2, text, Some(freshness)), gives(&[1]));
    }
    let mut nonce = 10;
    let mut named = |time: u64, request: fn(&str, u64) -> Request, text: &str| {
        nonce += 1;
        let short = b.ask(time, 1, &request(text, nonce));
        assert_eq!(short, gives(&[1]));
        read(b.sent(0)).unwrap().name().to_vec()
    };
    assert_eq!(named(0, prefix, "/a"), name("/a"));
    assert_eq!(named(0, req, "/a/bb"), name("/a/bb"));
    let both = |text: &str, nonce| Request { must_be_fresh: true, ..prefix(text, nonce) };
    assert_eq!(named(1, both, "/a"), name("/a/b"));
    assert_eq!(named(5, both, "/a"), name("/a/c"));
}

/// "When full, evicts the least recently stored or hit"; an equal name is replaced and is most
/// recent.
#[test]
fn eviction() {
    let mut b = Bench::plain(2);
    let store = |b: &mut Bench, text: &str, nonce: u64| {
        b.ask(0, 1, &fresh(text, nonce));
        assert_eq!(b.data(0, 2, text), gives(&[1]));
    };
    for n in 0..8 {
        store(&mut b, &format!("/{n}"), 1);
    }
    assert_eq!(b.ask(0, 1, &req("/0", 2)), gives(&[1]));
    store(&mut b, "/1", 2);
    store(&mut b, "/8", 1);
    assert_eq!(b.node.store().by_use().len(), 8);
    assert_eq!(b.ask(0, 1, &req("/2", 3)), asks(2), "evicted");
    for n in [0, 1, 3, 8] {
        assert_eq!(b.ask(0, 1, &req(&format!("/{n}"), 3)), gives(&[1]));
    }
}

/// A new Data of an equal name replaces bytes, time and freshness.
#[test]
fn replacing() {
    let mut b = Bench::plain(2);
    b.ask(0, 1, &req("/a", 1));
    b.fresh(0, 2, "/a", Some(10));
    assert_eq!(b.ask(10, 1, &fresh("/a", 2)), asks(2));
    let newer = data(&name("/a"), Some(5), 9);
    assert_eq!(b.packet(12, 2, &newer), gives(&[1]));
    assert_eq!(b.node.store().by_use().len(), 1);
    assert_eq!(b.ask(16, 1, &fresh("/a", 3)), gives(&[1]));
    assert_eq!(b.sent(0), newer);
    assert_eq!(b.ask(17, 1, &fresh("/a", 4)), asks(2));
}
