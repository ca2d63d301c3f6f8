//! Data and the requests it ends.

use crate::common::bench::{asks, fresh, gives, prefix, quiet, req, Bench};

/// Error to shut out: two requests of one face are ended by one copy, not by two.
#[test]
fn one_copy_per_face() {
    let mut b = Bench::plain(3);
    b.ask(0, 1, &req("/a/b", 1));
    b.ask(0, 1, &prefix("/a", 2));
    b.ask(0, 1, &fresh("/a/b", 3));
    b.ask(0, 2, &prefix("/a/b", 4));
    b.ask(0, 2, &req("/a", 5));
    assert_eq!(b.data(10, 3, "/a/b"), gives(&[1, 2]));
    let sends = &b.last.as_ref().unwrap().sends;
    assert_eq!((sends[0].at, sends[1].at), (0, 0), "written once");
    assert_eq!(b.counts(1), [3, 3, 0, 0, 0, 0, 0]);
    assert_eq!(b.counts(2), [2, 1, 0, 0, 0, 0, 1]);
}

/// "Those on the arrival face as self-met, unless that face is ad hoc"; from a face never asked.
#[test]
fn self_met() {
    let mut b = Bench::plain(3);
    b.ask(0, 1, &req("/a", 1));
    assert_eq!(b.data(10, 1, "/a"), quiet(0));
    assert_eq!(b.counts(1), [1, 0, 0, 0, 0, 1, 0]);
    assert_eq!(b.ask(20, 2, &req("/a", 2)), gives(&[2]), "it was stored");
    b.ask(30, 1, &req("/b", 3));
    b.ask(30, 2, &req("/b", 4));
    assert_eq!(b.data(40, 2, "/b"), gives(&[1]));
}

/// UNSOLICITED: "Data matching no entry", an empty name, and a refusal that changes no store.
#[test]
fn unsolicited() {
    let mut b = Bench::plain(2);
    assert_eq!(b.data(0, 2, ""), quiet(12));
    assert_eq!(b.data(0, 2, "/a"), quiet(12));
    b.ask(0, 1, &req("/a/b", 1));
    assert_eq!(b.data(0, 2, "/a"), quiet(12));
    assert_eq!(b.data(0, 2, "/a/b/c"), quiet(12));
    assert_eq!(b.fresh(0, 2, "/a/b", Some(10)), gives(&[1]));
    assert_eq!(b.fresh(5, 2, "/a/b", Some(10_000)), quiet(12));
    assert_eq!(b.ask(10, 1, &fresh("/a/b", 2)), asks(2), "the stored one was not refreshed");
}

/// Entries ended by Data leave dead lines.
#[test]
fn data_buries() {
    let mut b = Bench::plain(2);
    b.ask(0, 1, &req("/a", 1));
    b.data(10, 2, "/a");
    assert_eq!(b.ask(6_009, 1, &req("/a", 1)).0, 9);
    assert_eq!(b.ask(6_010, 1, &req("/a", 1)), gives(&[1]));
}
