//! The generator of tapes: one mode for each part of document 01 that a comparison must reach.

pub mod driver;
pub mod scripts;
pub mod traffic;

use driver::Driver;
use traffic::{Action, Profile};

/// All modes by name.
pub const MODES: [&str; 17] = [
    "answers",
    "links",
    "nacks",
    "retransmit",
    "loops",
    "dead",
    "ring",
    "store",
    "alarm",
    "monitoring",
    "bulk",
    "edges",
    "damage",
    "faces",
    "routes",
    "classes",
    "mixed",
];

/// Scope and link of faces: point-to-point ones only, and every kind.
const PLAIN_FACES: [(u64, u64); 4] = [(1, 0), (1, 0), (1, 0), (1, 0)];
const ALL_FACES: [(u64, u64); 7] = [(1, 0), (1, 0), (1, 1), (1, 2), (0, 0), (0, 1), (0, 2)];

const PLAIN_ROUTES: [(&str, u64); 3] = [("", 3), ("/a", 1), ("/a/b", 2)];
const ALL_ROUTES: [(&str, u64); 6] =
    [("", 3), ("/a", 1), ("/a/b", 2), ("/localhost", 1), ("/localhop", 2), ("/c", 3)];

const PLAIN_NAMES: [&str; 4] = ["/a", "/a/b", "/a/b/c", "/d"];
const ALL_NAMES: [&str; 9] = [
    "/a",
    "/a/b",
    "/a/b/c",
    "/d",
    "/localhost/x",
    "/localhop/y",
    "/localhost",
    "/localhosts/z",
    "/c",
];
const MANY_NAMES: [&str; 17] = [
    "/a", "/a/x", "/a/bb", "/a/aaa", "/a/b", "/a/b/c", "/b", "/b/x", "/b/aa", "/c", "/d", "/e",
    "/f", "/ab", "/", "/a/", "/zz",
];

/// The most common profile; a mode changes what it is about.
const BASE: Profile = Profile {
    faces: &PLAIN_FACES,
    routes: &PLAIN_ROUTES,
    names: &PLAIN_NAMES,
    spread: 200,
    fresh_one_in: 3,
    lifetimes: &[None, None, Some(1_000), Some(60_001)],
    freshnesses: &[None, Some(1_000)],
    hop_limits: &[None, None, None, Some(64), Some(2)],
    waits: &[0, 1, 50, 99, 100, 101, 1_000],
    hops: 3,
    actions: &[(Action::Wait, 3), (Action::Ask, 4), (Action::Answer, 2)],
};

/// A tape of a mode, at most 16,384 bytes; nothing if there is no such mode.
pub fn generate(mode: &str, seed: u64) -> Option<Vec<u8>> {
    let mut driver = Driver::new(seed);
    match mode {
        "answers" => {
            scripts::answers(&mut driver);
            traffic::run(&mut driver, &mixed());
        }
        "dead" => scripts::dead_nonces(&mut driver),
        "ring" => scripts::ring(&mut driver),
        "alarm" => scripts::overload(&mut driver, 1),
        "monitoring" => scripts::overload(&mut driver, 2),
        "bulk" => scripts::overload(&mut driver, 3),
        _ => traffic::run(&mut driver, &profile_of(mode)?),
    }
    Some(driver.finish())
}

/// The profile of a mode that is drawn traffic.
fn profile_of(mode: &str) -> Option<Profile> {
    match mode {
        "links" => Some(links()),
        "nacks" => Some(nacks()),
        "retransmit" => Some(retransmit()),
        "loops" => Some(loops()),
        "store" => Some(store()),
        "edges" => Some(edges()),
        "damage" => Some(damage()),
        "faces" => Some(faces()),
        "routes" => Some(routes()),
        "classes" => Some(classes()),
        "mixed" => Some(mixed()),
        _ => None,
    }
}

/// Every link type and scope, names that stay near, hop limits that run out.
fn links() -> Profile {
    Profile {
        faces: &ALL_FACES,
        routes: &ALL_ROUTES,
        names: &ALL_NAMES,
        hop_limits: &[None, None, Some(0), Some(1), Some(1), Some(2), Some(255)],
        hops: 4,
        actions: &[
            (Action::Wait, 4),
            (Action::Ask, 6),
            (Action::Join, 4),
            (Action::Answer, 3),
            (Action::Offer, 1),
            (Action::Nack, 1),
        ],
        ..BASE
    }
}

/// Nacks of all reasons, right and wrong, over several out-records.
fn nacks() -> Profile {
    Profile {
        faces: &[(1, 0), (1, 0), (1, 0), (1, 1), (1, 0), (1, 2)],
        lifetimes: &[None, Some(60_000)],
        actions: &[
            (Action::Wait, 4),
            (Action::Ask, 4),
            (Action::Renew, 4),
            (Action::Join, 3),
            (Action::Nack, 7),
            (Action::WrongNack, 2),
            (Action::Answer, 1),
        ],
        ..BASE
    }
}

/// The same names asked for again, around the 100 ms.
fn retransmit() -> Profile {
    Profile {
        faces: &[(1, 0), (1, 0), (1, 1), (1, 2), (1, 0), (0, 0)],
        names: &["/a", "/a/b"],
        spread: 20,
        fresh_one_in: 1,
        freshnesses: &[None, None, Some(100)],
        lifetimes: &[None, Some(500), Some(60_000)],
        waits: &[0, 1, 40, 99, 100, 101, 150],
        actions: &[
            (Action::Wait, 6),
            (Action::WaitToChange, 2),
            (Action::Ask, 1),
            (Action::Repeat, 3),
            (Action::Renew, 5),
            (Action::Join, 4),
            (Action::Answer, 1),
        ],
        ..BASE
    }
}

/// Nonces that come back from every side, and out of the dead list.
fn loops() -> Profile {
    Profile {
        faces: &ALL_FACES,
        names: &PLAIN_NAMES,
        fresh_one_in: 2,
        freshnesses: &[None, Some(100)],
        lifetimes: &[None, Some(0), Some(200)],
        actions: &[
            (Action::Wait, 3),
            (Action::WaitToChange, 2),
            (Action::Ask, 3),
            (Action::Repeat, 4),
            (Action::Circle, 5),
            (Action::Answer, 2),
            (Action::Nack, 1),
            (Action::Close, 1),
            (Action::Open, 1),
            (Action::Hop, 1),
        ],
        ..BASE
    }
}

/// More names than the store holds, hits and evictions, freshness.
fn store() -> Profile {
    Profile {
        names: &MANY_NAMES,
        spread: 2,
        freshnesses: &[None, Some(0), Some(1), Some(100), Some(1_000), Some(86_400_001)],
        waits: &[0, 1, 99, 100, 500, 999, 1_000],
        actions: &[
            (Action::Wait, 2),
            (Action::WaitToChange, 1),
            (Action::Ask, 8),
            (Action::Join, 2),
            (Action::Answer, 6),
            (Action::Offer, 1),
        ],
        ..BASE
    }
}

/// Lifetimes and freshness at their edges, the clock at the very changes.
fn edges() -> Profile {
    Profile {
        faces: &[(1, 0), (1, 0), (1, 1), (0, 2)],
        lifetimes: &[
            None,
            Some(0),
            Some(1),
            Some(99),
            Some(100),
            Some(3_999),
            Some(59_999),
            Some(60_000),
            Some(60_001),
            Some(u64::MAX),
        ],
        freshnesses: &[None, Some(0), Some(1), Some(100), Some(5_999), Some(u64::MAX)],
        waits: &[0, 1, 2],
        actions: &[
            (Action::Wait, 2),
            (Action::WaitToChange, 5),
            (Action::Tick, 2),
            (Action::Ask, 6),
            (Action::Renew, 2),
            (Action::Repeat, 2),
            (Action::Answer, 3),
        ],
        ..BASE
    }
}

/// Damaged packets and commands amid good ones.
fn damage() -> Profile {
    Profile {
        faces: &ALL_FACES,
        routes: &ALL_ROUTES,
        actions: &[
            (Action::Wait, 1),
            (Action::Ask, 2),
            (Action::Answer, 1),
            (Action::Damaged, 8),
            (Action::BadCommand, 2),
            (Action::BadClock, 1),
        ],
        ..BASE
    }
}

/// Faces that close and open while requests are pending.
fn faces() -> Profile {
    Profile {
        faces: &ALL_FACES,
        lifetimes: &[None, Some(60_000)],
        actions: &[
            (Action::Wait, 3),
            (Action::Ask, 8),
            (Action::Join, 3),
            (Action::Circle, 1),
            (Action::Answer, 2),
            (Action::Close, 2),
            (Action::Open, 4),
            (Action::Hop, 5),
            (Action::Nack, 1),
        ],
        ..BASE
    }
}

/// Routes and hops that come and go while requests are pending.
fn routes() -> Profile {
    Profile {
        names: &MANY_NAMES,
        routes: &ALL_ROUTES,
        hops: 1,
        actions: &[
            (Action::Wait, 3),
            (Action::Ask, 7),
            (Action::Renew, 5),
            (Action::Join, 2),
            (Action::Answer, 2),
            (Action::Route, 4),
            (Action::DropRoute, 2),
            (Action::Hop, 4),
            (Action::DropHop, 2),
            (Action::BadCommand, 1),
        ],
        ..BASE
    }
}

/// Names within each other, asked for by few faces while their routes change class.
fn classes() -> Profile {
    Profile {
        faces: &[(1, 0), (1, 0), (1, 0), (1, 1), (1, 2)],
        routes: &[("", 3), ("/a", 1), ("/a/b", 2), ("/a/b/c", 3)],
        names: &["/a", "/a/b", "/a/b/c", "/d"],
        spread: 2,
        fresh_one_in: 1,
        freshnesses: &[None, None, None, Some(20)],
        lifetimes: &[None, Some(60_000)],
        hop_limits: &[None],
        waits: &[0, 1, 50, 100],
        actions: &[
            (Action::Wait, 2),
            (Action::Ask, 8),
            (Action::Join, 4),
            (Action::Circle, 4),
            (Action::Renew, 1),
            (Action::Answer, 2),
            (Action::Nack, 2),
            (Action::Route, 3),
            (Action::DropRoute, 1),
            (Action::Hop, 2),
        ],
        ..BASE
    }
}

/// Everything at once.
fn mixed() -> Profile {
    Profile {
        faces: &ALL_FACES,
        routes: &ALL_ROUTES,
        names: &ALL_NAMES,
        spread: 100,
        fresh_one_in: 2,
        lifetimes: &[None, Some(0), Some(100), Some(1_000), Some(60_000)],
        freshnesses: &[None, Some(1), Some(1_000), Some(86_400_000)],
        hop_limits: &[None, None, None, Some(0), Some(1), Some(2), Some(64)],
        waits: &[0, 1, 1, 50, 50, 100, 100, 1_000],
        hops: 3,
        actions: &[
            (Action::Wait, 6),
            (Action::WaitToChange, 2),
            (Action::Tick, 1),
            (Action::Ask, 10),
            (Action::Repeat, 2),
            (Action::Renew, 3),
            (Action::Join, 3),
            (Action::Circle, 2),
            (Action::Answer, 6),
            (Action::Offer, 1),
            (Action::Nack, 3),
            (Action::WrongNack, 1),
            (Action::Open, 1),
            (Action::Close, 1),
            (Action::Route, 1),
            (Action::DropRoute, 1),
            (Action::Hop, 2),
            (Action::DropHop, 1),
            (Action::Damaged, 1),
            (Action::BadCommand, 1),
            (Action::BadClock, 1),
        ],
    }
}
