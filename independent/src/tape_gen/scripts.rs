//! Written-out tapes for what drawn traffic would hardly reach.

use super::driver::Driver;
use crate::build::{component, name, Request};
use crate::node::Event;
use crate::sizes::{DEAD_NONCES, FACES};

/// A request whose name is one short component that `number` makes.
fn numbered(number: u64) -> Request {
    let name = component(&(number as u16).to_be_bytes());
    Request::new(&name, number + 1)
}

/// Faces 1 and 2, and one route of a class for every name.
fn one_route(driver: &mut Driver, class: u64) {
    let link = driver.prng.below(3) as u64;
    driver.open(1, 1, link);
    driver.open(2, 1, 0);
    driver.route(class, &[]);
    driver.hop(2, 0, &[]);
}

/// More than 256 dead nonces within 6,000 ms, then old and young ones again.
pub fn dead_nonces(driver: &mut Driver) {
    one_route(driver, 1);
    let count = (DEAD_NONCES + 1 + driver.prng.below(40)) as u64;
    for number in 0..count {
        let mut request = numbered(number);
        request.lifetime = Some(0);
        driver.ask(1, &request);
        if driver.prng.one_in(16) {
            driver.wait(1);
        }
    }
    driver.tick();
    for _ in 0..60 {
        let mut request = numbered(driver.prng.below(count as usize) as u64);
        request.lifetime = Some(0);
        driver.ask(1, &request);
    }
    let joined = driver.time;
    for edge in [5_980, 5_999, 6_000, 6_016, 6_100] {
        driver.time = joined + edge;
        for _ in 0..10 {
            let number = count - 1 - driver.prng.below(200) as u64;
            driver.ask(1, &numbered(number));
        }
    }
    while !driver.full {
        let number = driver.prng.below(count as usize) as u64;
        let face = driver.prng.pick(&[1, 1, 1, 2]);
        driver.ask(face, &numbered(number));
        driver.wait(120);
    }
}

/// Several entries that leave at once, then just so many others that the ring's end falls among
/// their lines.
pub fn ring(driver: &mut Driver) {
    for face in 1..=6 {
        driver.open(face, 1, 0);
    }
    driver.route(1, &[]);
    let mut round = 0;
    while !driver.full {
        for (face, cost) in [(2, 0), (3, 1), (4, 2)] {
            driver.hop(face, cost, &[]);
        }
        let first_seen = driver.seen.len();
        let both_ways = driver.prng.one_in(3);
        if both_ways {
            ask_both_ways(driver, round);
        }
        open_many(driver, round);
        let joining = driver.waiting().len().max(1);
        leave_at_once(driver, both_ways);
        let overwritten = if driver.prng.one_in(3) { joining } else { joining.min(3) };
        let fillers = DEAD_NONCES - joining + driver.prng.below(overwritten) + 1;
        for number in 0..fillers as u64 {
            let mut filler = Request::new(&[8, 0], 1_000_000 + 1_000 * round + number);
            filler.lifetime = Some(0);
            driver.ask(1, &filler);
        }
        probe(driver, first_seen, fillers);
        driver.wait(6_000);
        round += 1;
    }
}

/// Opens entries under /p and /p/q with all flags, some with equal nonces, and sends some on twice
/// or thrice.
fn open_many(driver: &mut Driver, round: u64) {
    for number in 0..12 {
        let mut request = Request::new(&name(driver.prng.pick(&["/p", "/p/q", "/p/q"])), 0);
        request.nonce = [round as u8, 0, 0, driver.prng.pick(&[number, number, 0])];
        request.can_be_prefix = driver.prng.one_in(2);
        request.must_be_fresh = !driver.prng.one_in(4);
        let face = driver.prng.pick(&[1, 5, 6, 4]);
        driver.ask(face, &request);
    }
    for number in 20..32 {
        let gap = driver.prng.pick(&[0, 0, 50, 100]);
        driver.wait(gap);
        let mut waiting = driver.waiting();
        waiting.retain(|(_, request)| request.name != name(BOTH_WAYS));
        if waiting.is_empty() {
            return;
        }
        let (_, mut request) = waiting[driver.prng.below(waiting.len())].clone();
        if driver.prng.one_in(3) {
            request.nonce = [round as u8, 0, 0, number];
        }
        let face = driver.prng.pick(&[1, 5, 6, 4]);
        driver.ask(face, &request);
    }
}

/// The name of the entry that `ask_both_ways` makes.
const BOTH_WAYS: &str = "/w";

/// An entry whose only lasting request is of face 4, sent to faces 2, 3 and at last to face 4
/// itself.
fn ask_both_ways(driver: &mut Driver, round: u64) {
    let mut request = Request::new(&name(BOTH_WAYS), 0);
    for (number, face) in [(1, 4), (2, 4), (3, 1)] {
        request.nonce = [round as u8, 1, 0, number];
        request.lifetime = if face == 1 { Some(1) } else { None };
        driver.ask(face, &request);
        driver.wait(100);
    }
}

/// Ends many entries in one event: by Data, by closing a face, or by time.
fn leave_at_once(driver: &mut Driver, both_ways: bool) {
    match driver.prng.below(4) {
        _ if both_ways => driver.close(4),
        0 | 1 => {
            driver.data(2, &name("/p/q"), None);
        }
        2 => {
            let face = driver.prng.pick(&[1, 2, 3, 4, 5, 6]);
            driver.close(face);
        }
        _ => {}
    }
    driver.wait(4_000);
    for face in 1..=6 {
        driver.open(face, 1, 0);
    }
}

/// Asks again with the nonces seen in this round, while no route lets anything open.
fn probe(driver: &mut Driver, first_seen: usize, fillers: usize) {
    driver.tick();
    for face in [2, 3, 4] {
        driver.drop_hop(face, &[]);
    }
    let last_seen = driver.seen.len().saturating_sub(fillers);
    let mut asked = Vec::new();
    for at in first_seen..last_seen {
        let request = driver.seen[at].1.clone();
        let line = (request.name.clone(), request.nonce);
        if !asked.contains(&line) {
            asked.push(line);
            driver.ask(1, &request);
        }
    }
}

/// Fills the table with one class until there is no room, then lets the others in.
pub fn overload(driver: &mut Driver, class: u64) {
    driver.open(1, 1, 0);
    driver.open(2, 1, 0);
    driver.open(3, 1, 1);
    for route_class in 1..=3 {
        driver.route(route_class, &class_prefix(route_class));
        driver.hop(2, 0, &class_prefix(route_class));
    }
    let others: Vec<u64> = (1..=3).filter(|&other| other != class).collect();
    let mut number = 0;
    for _ in 0..driver.prng.below(20) {
        number += 1;
        let other = driver.prng.pick(&others);
        driver.ask(1, &in_class(other, number));
    }
    for _ in 0..45 {
        number += 1;
        let face = driver.prng.pick(&[1, 1, 3]);
        driver.ask(face, &in_class(class, number));
    }
    while !driver.full {
        number += 1;
        overload_step(driver, number);
    }
}

/// One event under load: mostly a new request, else an answer, a renewal, a route's new class, or
/// time.
fn overload_step(driver: &mut Driver, number: u64) {
    let any_class = driver.prng.between(1, 3) as u64;
    match driver.prng.below(14) {
        0 | 1 => answer_one(driver),
        2 | 3 => {
            let wait = driver.prng.pick(&[1, 20, 20, 20, 200]);
            driver.wait(wait);
        }
        4 => {
            let new_class = driver.prng.between(1, 3) as u64;
            driver.route(new_class, &class_prefix(any_class));
        }
        5 => {
            let waiting = driver.waiting();
            if !waiting.is_empty() {
                let mut request = waiting[driver.prng.below(waiting.len())].1.clone();
                request.nonce = (1_000_000 + number as u32).to_be_bytes();
                driver.ask(1, &request);
            }
        }
        _ => driver.ask(1, &in_class(any_class, number)),
    }
}

/// The prefix that carries a class.
fn class_prefix(class: u64) -> Vec<u8> {
    component(&[b'0' + class as u8])
}

/// A request in a class, each under a name of its own.
fn in_class(class: u64, number: u64) -> Request {
    let mut name = class_prefix(class);
    name.extend(component(&(number as u16).to_be_bytes()));
    Request::new(&name, number)
}

/// Data for one of the Interests the node waits for.
fn answer_one(driver: &mut Driver) {
    let waiting = driver.waiting();
    if !waiting.is_empty() {
        let (face, request) = &waiting[driver.prng.below(waiting.len())];
        driver.data(*face, &request.name, None);
    }
}

/// Every answer a tape can reach, each from its plainest cause, then again over a full route table.
pub fn answers(driver: &mut Driver) {
    let a = name("/a");
    driver.open(1, 1, 0);
    driver.open(2, 1, 0);
    driver.open(3, 0, 1);
    driver.route(1, &a);
    driver.hop(2, 10, &a);
    driver.wait(100);
    refusals_of_events(driver, &a);
    refusals_of_interests(driver, &a);
    driver.data(2, &a, Some(50));
    driver.data(2, &name("/b"), None);
    driver.nack(2, 150, &Request::new(&a, 1));
    driver.nack(3, 150, &Request::new(&a, 1));
    for number in 0..34 {
        let class = driver.prng.between(1, 3) as u64;
        driver.route(class, &component(&[number]));
    }
    driver.route(0, &name("/full"));
    driver.route(2, &a);
    driver.wait(6_000);
    for number in 10..60 {
        let below_a = [&a[..], &component(&[number as u8])].concat();
        driver.ask(1, &Request::new(&below_a, number));
    }
    driver.nack(2, 50, &Request::new(&[&a[..], &component(&[39])].concat(), 39));
    driver.close(2);
    driver.wait(4_000);
    driver.tick();
}

/// Answers 1, 3, 4, 5, 6, 10, 14 and 15 of events that are no Interest.
fn refusals_of_events(driver: &mut Driver, a: &[u8]) {
    driver.tick();
    driver.put(Event::Tick { time: driver.time - 1 });
    driver.put(Event::Tick { time: (1 << 53) + 1 });
    driver.open(0, 0, 0);
    driver.open(FACES as u64 + 1, 0, 0);
    driver.close(9);
    driver.hop(9, 65_536, &[8]);
    driver.open(1, 9, 9);
    driver.open(4, 2, 0);
    driver.open(4, 0, 3);
    driver.packet(1, &[0; 1_501]);
    driver.packet(1, &[5, 0]);
    driver.packet(1, &[0x64, 0]);
    driver.route(4, a);
    driver.route(1, &name("/l").repeat(17));
    driver.route(0, &[8, 2, 1]);
    driver.route(0, &[1, 0]);
    driver.hop(2, 65_536, a);
    driver.hop(2, 65_536, &name("/none"));
    driver.hop(2, 1, &name("/none"));
    driver.drop_hop(1, a);
    driver.drop_hop(1, &name("/none"));
    driver.drop_route(&name("/none"));
}

/// Answers 0, 7, 8, 9 and 10 of Interests.
fn refusals_of_interests(driver: &mut Driver, a: &[u8]) {
    let mut request = Request::new(a, 1);
    driver.ask(1, &request);
    driver.ask(1, &request);
    driver.ask(2, &request);
    driver.ask(3, &request);
    request.hop_limit = Some(0);
    driver.ask(1, &request);
    driver.nack(1, 150, &request);
    driver.ask(1, &Request::new(&name("/localhost/x"), 2));
    driver.data(1, &name("/localhost/x"), None);
    driver.nack(1, 0, &Request::new(&name("/localhost/x"), 2));
    driver.ask(3, &Request::new(&name("/localhost/x"), 2));
    driver.ask(1, &Request::new(&name("/b"), 3));
    driver.ask(2, &Request::new(&name("/a/b"), 4));
}
