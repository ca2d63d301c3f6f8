//! Classes and the room they leave each other.

use crate::common::bench::{asks, nack_sent, quiet, refuses, req, Bench};

/// "P: class 3 alone opens 24, the 25th gets 11"; class 1 alone opens 40, class 2 alone 32.
#[test]
fn room_of_one_class() {
    for (class, most) in [(1, 40), (2, 32), (3, 24)] {
        let mut b = Bench::plain(2);
        b.route(0, class, "");
        for n in 0..most {
            assert_eq!(b.ask(0, 1, &req(&format!("/{n}"), n)), asks(2));
        }
        assert_eq!(b.ask(0, 1, &req("/one-more", 99)), refuses(11, 1));
        assert_eq!(nack_sent(b.sent(0)), (50, [0, 0, 0, 99]));
        assert_eq!(b.ask(0, 1, &req("/0", 99)), quiet(0), "an entry present needs no room");
    }
}

/// Error to shut out: room is not decided by empty places alone; the reserves of others stay free.
#[test]
fn reserves_stay_free() {
    let mut b = Bench::plain(2);
    b.route(0, 3, "/bulk");
    b.hop(0, 2, 0, "/bulk");
    b.route(0, 2, "/mon");
    b.hop(0, 2, 0, "/mon");
    let open = |b: &mut Bench, prefix: &str, count: u64| -> u64 {
        (0..count).filter(|n| b.ask(0, 1, &req(&format!("{prefix}/{n}"), *n)).0 == 0).count() as u64
    };
    assert_eq!(open(&mut b, "/bulk", 30), 24);
    assert_eq!(open(&mut b, "/mon", 30), 16);
    assert_eq!(open(&mut b, "/alarm", 30), 24);
    assert_eq!(b.node.pending().entries.len(), 64);
}

/// "A pending entry keeps the class its route had when it opened."
#[test]
fn class_is_kept() {
    let mut b = Bench::plain(2);
    b.route(0, 3, "");
    for n in 0..24 {
        b.ask(0, 1, &req(&format!("/{n}"), n));
    }
    b.route(0, 1, "");
    for n in 24..48 {
        assert_eq!(b.ask(0, 1, &req(&format!("/{n}"), n)).0, 0);
    }
    b.route(0, 3, "");
    assert_eq!(b.ask(0, 1, &req("/x", 1)).0, 11);
    b.route(0, 2, "");
    assert_eq!(b.ask(0, 1, &req("/x", 1)).0, 0);
}

/// NO_ROUTE comes before NO_ROOM.
#[test]
fn no_route_before_no_room() {
    let mut b = Bench::plain(2);
    b.route(0, 3, "");
    for n in 0..24 {
        b.ask(0, 1, &req(&format!("/{n}"), n));
    }
    assert_eq!(b.ask(0, 2, &req("/x", 1)).0, 10);
    assert_eq!(b.ask(0, 1, &req("/x", 1)).0, 11);
}
