//! Drawn traffic: a profile says which faces, names and times there are and what is done how often.

use super::driver::Driver;
use crate::build::{component, name, Request};
use crate::node::Event;
use crate::packet_gen;
use crate::sizes::FACES;

/// One thing a tape may do next.
#[derive(Clone, Copy, Debug, PartialEq, Eq)]
pub enum Action {
    Wait,
    /// Time goes to just before, at, or just after a time at which something changes.
    WaitToChange,
    Tick,
    Ask,
    /// An earlier request again, same face and nonce.
    Repeat,
    /// An earlier request again, same face, new nonce.
    Renew,
    /// An earlier request from another face with a new nonce.
    Join,
    /// An earlier request from another face with its old nonce.
    Circle,
    /// Data for an Interest that was sent on.
    Answer,
    /// Data of any name from any face.
    Offer,
    /// A Nack for an Interest that was sent on.
    Nack,
    /// A Nack with a wrong nonce, flag or face.
    WrongNack,
    Open,
    Close,
    Route,
    DropRoute,
    Hop,
    DropHop,
    Damaged,
    BadCommand,
    BadClock,
}

/// What a mode draws from.
pub struct Profile {
    /// Scope and link of the faces opened first, from face 1.
    pub faces: &'static [(u64, u64)],
    /// Prefixes routed first, with their classes.
    pub routes: &'static [(&'static str, u64)],
    pub names: &'static [&'static str],
    /// How many names extend each of these by one component.
    pub spread: usize,
    /// One request in so many has MustBeFresh.
    pub fresh_one_in: usize,
    pub lifetimes: &'static [Option<u64>],
    pub freshnesses: &'static [Option<u64>],
    pub hop_limits: &'static [Option<u8>],
    pub waits: &'static [u64],
    /// How many hops each route gets at first.
    pub hops: usize,
    pub actions: &'static [(Action, usize)],
}

/// The next hops' costs: equal ones are common.
const COSTS: [u64; 5] = [0, 1, 10, 10, 65_535];
/// Reasons of Nacks, known and not.
const REASONS: [u64; 8] = [0, 50, 100, 150, 50, 150, 7, 1 << 40];

/// Components that extend a name, for which length and bytes give different orders.
const SUFFIXES: [&str; 7] = ["x", "y", "z", "aa", "bb", "ccc", ""];

/// A tape of drawn traffic.
pub fn run(driver: &mut Driver, profile: &Profile) {
    set_up(driver, profile);
    let sum: usize = profile.actions.iter().map(|(_, weight)| weight).sum();
    while !driver.full {
        let mut left = driver.prng.below(sum);
        for &(action, weight) in profile.actions {
            if left < weight {
                act(driver, profile, action);
                break;
            }
            left -= weight;
        }
    }
}

/// Opens the profile's faces and sets its routes and hops.
fn set_up(driver: &mut Driver, profile: &Profile) {
    for (place, &(scope, link)) in profile.faces.iter().enumerate() {
        driver.open(place as u64 + 1, scope, link);
    }
    for &(prefix, class) in profile.routes {
        driver.route(class, &name(prefix));
        for _ in 0..profile.hops {
            let face = any_face(driver, profile);
            let cost = driver.prng.pick(&COSTS);
            driver.hop(face, cost, &name(prefix));
        }
    }
}

/// One of the profile's faces, mostly an open one.
fn any_face(driver: &mut Driver, profile: &Profile) -> u64 {
    face_that(driver, profile, true)
}

/// One of the profile's faces, mostly one that is open or is not, as asked for.
fn face_that(driver: &mut Driver, profile: &Profile, is_open: bool) -> u64 {
    let all = 1..=profile.faces.len();
    let wanted: Vec<usize> =
        all.filter(|&face| driver.node.faces().get(face).is_some() == is_open).collect();
    if wanted.is_empty() || driver.prng.one_in(25) {
        driver.prng.between(1, profile.faces.len()) as u64
    } else {
        driver.prng.pick(&wanted) as u64
    }
}

/// Does one thing.
fn act(driver: &mut Driver, profile: &Profile, action: Action) {
    match action {
        Action::Wait => {
            let wait = driver.prng.pick(profile.waits);
            driver.wait(wait);
        }
        Action::WaitToChange => wait_to_change(driver),
        Action::Tick => driver.tick(),
        Action::Ask => ask(driver, profile),
        Action::Repeat | Action::Renew | Action::Join | Action::Circle => {
            ask_again(driver, profile, action)
        }
        Action::Answer => answer(driver, profile),
        Action::Offer => offer(driver, profile),
        Action::Nack => nack(driver),
        Action::WrongNack => wrong_nack(driver, profile),
        Action::Damaged => {
            let face = any_face(driver, profile);
            let bytes = packet_gen::packet(&mut driver.prng);
            driver.packet(face, &bytes);
        }
        Action::BadClock => {
            let time = driver.prng.pick(&[driver.time.saturating_sub(1), (1 << 53) + 1, u64::MAX]);
            driver.put(Event::Tick { time });
        }
        _ => command(driver, profile, action),
    }
}

/// A new request for one of the profile's names.
fn ask(driver: &mut Driver, profile: &Profile) {
    let mut name = name(driver.prng.pick(profile.names));
    if driver.prng.one_in(2) {
        name.extend(component(&[driver.prng.below(profile.spread) as u8]));
    }
    let nonce = if driver.prng.one_in(12) { 7 } else { driver.prng.word() };
    let mut request = Request::new(&name, nonce);
    request.can_be_prefix = driver.prng.one_in(3);
    request.must_be_fresh = driver.prng.one_in(profile.fresh_one_in);
    request.lifetime = driver.prng.pick(profile.lifetimes);
    request.hop_limit = driver.prng.pick(profile.hop_limits);
    let face = any_face(driver, profile);
    driver.ask(face, &request);
}

/// One of the last requests again: from which face and with which nonce, the action says.
fn ask_again(driver: &mut Driver, profile: &Profile, action: Action) {
    let recent = driver.seen.len().min(12);
    if recent == 0 {
        return;
    }
    let at = driver.seen.len() - 1 - driver.prng.below(recent);
    let (mut face, mut request) = driver.seen[at].clone();
    if matches!(action, Action::Join | Action::Circle) {
        face = any_face(driver, profile);
    }
    if matches!(action, Action::Renew | Action::Join) {
        request.nonce = (driver.prng.word() as u32).to_be_bytes();
        request.lifetime = driver.prng.pick(profile.lifetimes);
        request.hop_limit = driver.prng.pick(profile.hop_limits);
    }
    driver.ask(face, &request);
}

/// An Interest that was sent on and the face it left by: mostly one still pending, else one of the
/// last.
fn sent_on(driver: &mut Driver) -> Option<(u64, Request)> {
    let waiting = driver.waiting();
    if !waiting.is_empty() && !driver.prng.one_in(6) {
        let at = driver.prng.below(waiting.len());
        return waiting.into_iter().nth(at);
    }
    let recent = driver.sent.len().min(10);
    if recent == 0 {
        return None;
    }
    let at = driver.sent.len() - 1 - driver.prng.below(recent);
    Some(driver.sent[at].clone())
}

/// Data for an Interest that was sent on, mostly from the face it was sent to.
fn answer(driver: &mut Driver, profile: &Profile) {
    let Some((mut face, request)) = sent_on(driver) else {
        return;
    };
    let mut name = request.name;
    if request.can_be_prefix && !driver.prng.one_in(3) {
        name.extend(component(driver.prng.pick(&SUFFIXES).as_bytes()));
    }
    if driver.prng.one_in(6) {
        face = any_face(driver, profile);
    }
    let freshness = driver.prng.pick(profile.freshnesses);
    driver.data(face, &name, freshness);
}

/// Data that nobody may have asked for.
fn offer(driver: &mut Driver, profile: &Profile) {
    let mut name = name(driver.prng.pick(profile.names));
    if driver.prng.one_in(3) {
        name.extend(component(driver.prng.pick(&SUFFIXES).as_bytes()));
    }
    if driver.prng.one_in(20) {
        name.clear();
    }
    let face = any_face(driver, profile);
    let freshness = driver.prng.pick(profile.freshnesses);
    driver.data(face, &name, freshness);
}

/// A Nack for an Interest that was sent on, from the face it was sent to.
fn nack(driver: &mut Driver) {
    if let Some((face, request)) = sent_on(driver) {
        let reason = driver.prng.pick(&REASONS);
        driver.nack(face, reason, &request);
    }
}

/// A Nack that is wrong in its nonce, a flag or its face.
fn wrong_nack(driver: &mut Driver, profile: &Profile) {
    let Some((mut face, mut request)) = sent_on(driver) else {
        return;
    };
    match driver.prng.below(4) {
        0 => request.nonce[0] ^= 1,
        1 => request.can_be_prefix = !request.can_be_prefix,
        2 => request.must_be_fresh = !request.must_be_fresh,
        _ => face = any_face(driver, profile),
    }
    driver.nack(face, 150, &request);
}

/// Time goes to an edge: an expiry, the end of suppression, of freshness, of a dead line, give or
/// take one.
fn wait_to_change(driver: &mut Driver) {
    let mut edges: Vec<u64> = driver.changes.iter().rev().take(8).copied().collect();
    for entry in &driver.node.pending().entries {
        edges.extend(entry.ins.values().map(|request| request.expiry));
        edges.extend(entry.outs.values().map(|record| record.sent + 100));
    }
    let step = driver.prng.below(3) as u64;
    edges.retain(|&edge| edge < driver.time + 100_000 && edge + step > driver.time);
    if !edges.is_empty() {
        driver.time = driver.prng.pick(&edges) + step - 1;
    }
}

/// A prefix that is mostly one of the profile's routes.
fn any_prefix(driver: &mut Driver, profile: &Profile) -> Vec<u8> {
    if driver.prng.one_in(4) {
        name(driver.prng.pick(profile.names))
    } else {
        name(driver.prng.pick(profile.routes).0)
    }
}

/// Opens, closes, sets and drops.
fn command(driver: &mut Driver, profile: &Profile, action: Action) {
    let face = any_face(driver, profile);
    let prefix = any_prefix(driver, profile);
    match action {
        Action::Open => {
            let face = face_that(driver, profile, false);
            let (scope, link) = (driver.prng.below(2) as u64, driver.prng.below(3) as u64);
            driver.open(face, scope, link);
            driver.hop(face, 1, &prefix);
        }
        Action::Close => driver.close(face),
        Action::Route => {
            let class = driver.prng.between(1, 3) as u64;
            driver.route(class, &prefix);
        }
        Action::DropRoute => driver.drop_route(&prefix),
        Action::Hop => {
            let cost = driver.prng.pick(&COSTS);
            driver.hop(face, cost, &prefix);
        }
        Action::DropHop => driver.drop_hop(face, &prefix),
        _ => bad_command(driver, face, &prefix),
    }
}

/// A command with something wrong: face, setting, class, cost or prefix.
fn bad_command(driver: &mut Driver, face: u64, prefix: &[u8]) {
    let prng = &mut driver.prng;
    let far_face = prng.pick(&[0, FACES as u64 + 1, 255, 1 << 60]);
    let bad_scope = prng.pick(&[2, 1 << 40]);
    let bad_link = prng.pick(&[3, 4, 1 << 40]);
    let bad_class = prng.pick(&[0, 4, 1 << 40]);
    let bad_cost = prng.pick(&[65_536, 1 << 63]);
    let long = name("/l").repeat(prng.pick(&[16, 17]));
    let broken = prng.pick(&[&[8, 2, 1][..], &[0, 0], &[1, 0], &[2, 1, 5], &[253, 0, 8, 0]]);
    match prng.below(13) {
        0 => driver.open(far_face, 0, 0),
        1 => driver.open(face, bad_scope, 0),
        2 => driver.open(face, 0, bad_link),
        3 => driver.close(far_face),
        4 => driver.route(bad_class, prefix),
        5 => driver.route(bad_class, broken),
        6 => driver.route(1, &long),
        7 => driver.hop(far_face, bad_cost, prefix),
        8 => driver.hop(face, bad_cost, prefix),
        9 => driver.hop(face, 1, broken),
        10 => driver.drop_hop(far_face, prefix),
        11 => driver.drop_route(broken),
        _ => driver.packet(far_face, &[5]),
    }
}
