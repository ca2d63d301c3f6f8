//! Routes and hops.

use crate::common::bench::{asks, refuses, req, Bench};

/// Routes: known prefixes keep their hops, classes and costs have ranges, absent ones are 10.
#[test]
fn routes() {
    let mut b = Bench::plain(2);
    assert_eq!(b.route(0, 0, "/a"), 15);
    assert_eq!(b.route(0, 4, "/a"), 15);
    assert_eq!(b.route(0, 2, "/a"), 0);
    assert_eq!(b.hop(0, 2, 65_536, "/a"), 15);
    assert_eq!(b.hop(0, 2, 65_536, "/none"), 15);
    assert_eq!(b.hop(0, 2, 65_535, "/none"), 10);
    assert_eq!(b.hop(0, 2, 65_535, "/a"), 0);
    assert_eq!(b.route(0, 3, "/a"), 0);
    assert_eq!(b.ask(0, 1, &req("/a", 1)), asks(2), "the hops stayed");
    assert_eq!(b.drop_hop(0, 1, "/a"), 10);
    assert_eq!(b.drop_hop(0, 2, "/none"), 10);
    assert_eq!(b.drop_hop(0, 2, "/a"), 0);
    assert_eq!(b.ask(0, 1, &req("/a/x", 1)).0, 10, "a route without hops hides shorter ones");
    assert_eq!(b.drop_route(0, "/a"), 0);
    assert_eq!(b.drop_route(0, "/a"), 10);
    assert_eq!(b.ask(0, 1, &req("/a/x", 1)).0, 0);
}

/// "A 33rd route" is 16, after 15; known prefixes may still be set.
#[test]
fn table_full() {
    let mut b = Bench::plain(2);
    for n in 1..32 {
        assert_eq!(b.route(0, 1, &format!("/{n}")), 0);
    }
    assert_eq!(b.route(0, 1, "/one-more"), 16);
    assert_eq!(b.route(0, 0, "/one-more"), 15);
    assert_eq!(b.route(0, 2, "/7"), 0);
    assert_eq!(b.drop_route(0, "/7"), 0);
    assert_eq!(b.route(0, 1, "/one-more"), 0);
}

/// Outside vector: /AA/BB is under route /AA, not under /A.
#[test]
fn routes_match_by_components() {
    let mut b = Bench::plain(2);
    b.drop_route(0, "");
    b.route(0, 1, "/A");
    b.hop(0, 2, 0, "/A");
    assert_eq!(b.ask(0, 1, &req("/AA/BB", 1)), refuses(10, 1));
    b.route(0, 1, "/AA");
    b.hop(0, 2, 0, "/AA");
    assert_eq!(b.ask(0, 1, &req("/AA/BB", 1)), asks(2));
}
