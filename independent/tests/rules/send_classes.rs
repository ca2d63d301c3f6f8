//! The class of each send: request 4 of document 02.

use crate::common::bench::{
    asks, gives, lasting, prefix, quiet, refuses, req, Bench, ADHOC, FAR, MULTI, P2P,
};

/// The kinds of sends.
const INTEREST: u8 = 1;
const DATA: u8 = 2;
const NACK: u8 = 3;

/// Far point-to-point faces 1 to `count`, and a route of each class for /1, /2 and /3 with a hop to
/// the last.
fn classed(count: u64) -> Bench {
    let mut b = Bench::new();
    for face in 1..=count {
        b.open(0, face, FAR, P2P);
    }
    for class in 1..=3 {
        b.route(0, class, &format!("/{class}"));
        b.hop(0, count, 0, &format!("/{class}"));
    }
    b
}

/// An Interest takes the class of the entry it opens.
#[test]
fn interest_that_opens() {
    let mut b = classed(2);
    for class in 1..=3 {
        assert_eq!(b.ask(0, 1, &req(&format!("/{class}/a"), 1)), asks(2));
        assert_eq!(b.classes(), [(2, INTEREST, class)]);
    }
}

/// "A send takes the class of the entry it belongs to", whatever the routes say by then.
#[test]
fn interest_sent_again() {
    let mut b = classed(2);
    b.ask(0, 1, &req("/2/a", 1));
    b.route(100, 3, "/2");
    assert_eq!(b.ask(100, 1, &req("/2/a", 2)), asks(2));
    assert_eq!(b.classes(), [(2, INTEREST, 2)]);
    b.route(200, 1, "/2/a");
    b.hop(200, 2, 0, "/2/a");
    assert_eq!(b.ask(200, 1, &req("/2/a", 3)), asks(2));
    assert_eq!(b.classes(), [(2, INTEREST, 2)]);
}

/// A Nack that ends a request takes the entry's class, not its route's by then.
#[test]
fn nack_that_ends_a_request() {
    let mut b = classed(3);
    b.ask(0, 1, &req("/2/a", 1));
    b.ask(10, 2, &req("/2/a", 2));
    b.route(20, 1, "/2");
    assert_eq!(b.nack(30, 3, 150, &req("/2/a", 1)).0, 0);
    assert_eq!(b.classes(), [(1, NACK, 2), (2, NACK, 2)]);
    b.ask(40, 1, &req("/3/a", 1));
    b.drop_route(50, "/3");
    assert_eq!(b.nack(60, 3, 50, &req("/3/a", 1)), refuses(0, 1));
    assert_eq!(b.classes(), [(1, NACK, 3)]);
}

/// Data that ends a request takes the entry's class, not its route's by then.
#[test]
fn data_that_ends_a_request() {
    let mut b = classed(3);
    b.ask(0, 1, &req("/2/a", 1));
    b.ask(10, 2, &req("/2/a", 2));
    b.route(20, 1, "/2");
    assert_eq!(b.data(30, 3, "/2/a"), gives(&[1, 2]));
    assert_eq!(b.classes(), [(1, DATA, 2), (2, DATA, 2)]);
}

/// Entries of class 3, 2 and 1 that the Data /a/b/c ends, asked for in this order by some faces.
fn three_entries(b: &mut Bench, order: &[(u64, &[u64])]) {
    for &(class, faces) in order {
        let text = ["/a/b/c", "/a/b", "/a"][class as usize - 1];
        b.route(0, class, text);
        b.hop(0, 6, 0, text);
        for &face in faces {
            b.ask(0, face, &prefix(text, 10 * class + face));
        }
    }
}

/// "The lowest if one Data ends requests of several on that face": by face, in any order of
/// opening.
#[test]
fn data_of_several_entries() {
    let rows: [[(u64, &[u64]); 3]; 2] = [
        [(3, &[1, 2, 4, 5]), (2, &[2, 3, 4]), (1, &[4, 3])],
        [(1, &[4, 3]), (2, &[2, 3, 4]), (3, &[1, 2, 4, 5])],
    ];
    for order in rows {
        let mut b = classed(6);
        three_entries(&mut b, &order);
        assert_eq!(b.data(10, 6, "/a/b/c"), gives(&[1, 2, 3, 4, 5]));
        let expected = [(1, 3), (2, 2), (3, 1), (4, 1), (5, 3)];
        assert_eq!(b.classes(), expected.map(|(face, class)| (face, DATA, class)));
    }
}

/// Only entries that the Data ends count: not one of another name, nor one whose request has
/// expired.
#[test]
fn entries_that_are_not_ended() {
    for (time, class) in [(4, 1), (5, 3)] {
        let mut b = classed(2);
        b.ask(0, 1, &prefix("/3/a", 1));
        b.route(0, 1, "/3/a");
        b.hop(0, 2, 0, "/3/a");
        b.ask(0, 1, &lasting("/3/a", 2, 5));
        b.ask(0, 1, &req("/3/a/b", 3));
        assert_eq!(b.data(time, 2, "/3/a"), gives(&[1]));
        assert_eq!(b.classes(), [(1, DATA, class)]);
    }
}

/// The copy that goes back out of an ad hoc arrival face has its class like any other.
#[test]
fn data_back_out_of_an_ad_hoc_face() {
    let mut b = classed(2);
    b.open(0, 3, FAR, ADHOC);
    b.ask(0, 3, &prefix("/3/a", 1));
    b.ask(0, 1, &prefix("/3/a", 2));
    b.route(0, 2, "/3/a");
    b.hop(0, 2, 0, "/3/a");
    b.ask(0, 3, &req("/3/a", 3));
    assert_eq!(b.data(10, 3, "/3/a"), gives(&[1, 3]));
    assert_eq!(b.classes(), [(1, DATA, 3), (3, DATA, 2)]);
}

/// A Nack 100 takes the class of the longest route by now, not that of the entry it meets.
#[test]
fn refusal_for_a_loop() {
    let mut b = classed(3);
    b.ask(0, 1, &req("/1/a", 1));
    for (class, text) in [(2, "/1"), (3, "/1/a"), (1, "")] {
        b.route(10, class, text);
    }
    let looping = |b: &mut Bench, class: u8| {
        assert_eq!(b.ask(20, 2, &req("/1/a", 1)), refuses(9, 2));
        assert_eq!(b.classes(), [(2, NACK, class)]);
    };
    looping(&mut b, 3);
    b.drop_route(20, "/1/a");
    looping(&mut b, 2);
    b.drop_route(20, "/1");
    looping(&mut b, 1);
    b.drop_route(20, "");
    looping(&mut b, 3);
}

/// A Nack 150 takes the class of the longest route though no hop of it is eligible, or 3 without
/// one.
#[test]
fn refusal_without_a_route() {
    let mut b = classed(2);
    b.route(0, 1, "/2/a");
    let rows = [(1, "/2/a/b", 1), (2, "/2/b", 2), (2, "/1", 1), (1, "/none", 3)];
    for (face, text, class) in rows {
        assert_eq!(b.ask(0, face, &req(text, 1)), refuses(10, face as usize));
        assert_eq!(b.classes(), [(face as usize, NACK, class)], "{text}");
    }
}

/// A Nack 50 takes the class that had no room.
#[test]
fn refusal_without_room() {
    for class in 1..=3 {
        let mut b = classed(2);
        let mut n = 0;
        while b.ask(0, 1, &req(&format!("/{class}/{n}"), n)) == asks(2) {
            assert_eq!(b.classes(), [(2, INTEREST, class)]);
            n += 1;
        }
        assert_eq!(b.ask(0, 1, &req(&format!("/{class}/{n}"), n)), refuses(11, 1));
        assert_eq!(b.classes(), [(1, NACK, class)]);
    }
}

/// A face that is not point-to-point gets no Nack, so there is no class either.
#[test]
fn refusal_without_a_nack() {
    let mut b = classed(2);
    b.open(0, 3, FAR, MULTI);
    assert_eq!(b.ask(0, 3, &req("/none", 1)), quiet(10));
    assert_eq!(b.classes(), []);
}

/// Data from the store takes the class of the longest route for its own name, not for the
/// Interest's.
#[test]
fn data_from_the_store() {
    let mut b = classed(2);
    b.ask(0, 1, &req("/3/x", 1));
    assert_eq!(b.data(0, 2, "/3/x"), gives(&[1]));
    let mut nonce = 10;
    let mut hit = |b: &mut Bench, class: u8| {
        nonce += 1;
        assert_eq!(b.ask(10, 1, &prefix("/3", nonce)), gives(&[1]));
        assert_eq!(b.classes(), [(1, DATA, class)]);
    };
    hit(&mut b, 3);
    b.route(10, 1, "/3/x");
    hit(&mut b, 1);
    b.route(10, 2, "/3/x");
    hit(&mut b, 2);
    b.route(10, 1, "/3/x/y");
    hit(&mut b, 2);
    b.drop_route(10, "/3/x");
    b.route(10, 1, "/3");
    hit(&mut b, 1);
    b.drop_route(10, "/3");
    hit(&mut b, 3);
}
