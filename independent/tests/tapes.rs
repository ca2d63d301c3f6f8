//! Tapes: document 01's sample, what cannot be read, and what holds over every generated tape.

mod common;

use common::hex;
use common::tapes::{all_tapes, sample, SEEDS};
use independent::node::class::{claimed, Class, CLASSES};
use independent::node::face::{Faces, Link};
use independent::node::history::{Happening, Tally, What};
use independent::node::{Answer, Event, Kind, Node, Outcome};
use independent::packet::{read, Interest, Meaning, Packet};
use independent::sizes::{DEAD_NONCES, FACES, LEAST_BUFFER, PENDING, ROUTES, STORED, TAPE_BYTES};
use independent::tape::{events, read_event, run, write_event};
use independent::tape_gen::{generate, MODES};
use std::collections::{BTreeMap, BTreeSet};

/// What the unused part of the buffer is filled with.
const UNTOUCHED: u8 = 0xEE;

/// Document 01's sample output.
#[test]
fn sample_tape() {
    let expected = "1 0 0\n2 0 0\n3 0 0\n4 0 0\n5 0 1\n> 2 1 13\n6 0 0\ntotal 1 0 0 1 0 0 0\n";
    assert_eq!(run(&sample()), expected);
}

/// "An unreadable event prints `bad` and the offset of its first byte, from 0, then the total, and
/// ends the run."
#[test]
fn unreadable_events() {
    let total = "total 1 0 0 1 0 0 0\n";
    let lines: String = run(&sample()).lines().take(7).map(|line| format!("{line}\n")).collect();
    let tails = [
        "00",
        "09 00",
        "02",
        "02 80",
        "02 80 00",
        "81 00 00",
        "01 64 01 0D 05",
        "01 84 20 99",
        "03 84 20 01 01",
        "02 FF FF FF FF FF FF FF FF FF 02",
        "05 84 20 01 04 08 01 61",
        "07 84 20 01 01 FF FF FF FF FF FF FF FF FF 01 08",
    ];
    for tail in tails {
        let tape = [sample(), hex(tail)].concat();
        let expected = format!("{lines}bad {}\n{total}", sample().len());
        assert_eq!(run(&tape), expected, "{tail}");
    }
}

/// Great numbers are readable and refused by number.
#[test]
fn great_numbers_are_refused_by_number() {
    let great = u64::MAX;
    let mut tape = sample();
    let list = [
        (Event::Tick { time: great }, 1),
        (Event::Close { time: 5_000, face: great }, 3),
        (Event::Open { time: 5_000, face: 3, scope: great, link: great }, 15),
        (Event::SetRoute { time: 5_000, class: great, prefix: &[] }, 15),
        (Event::AddHop { time: 5_000, face: 1, cost: great, prefix: &[8, 1, 0x61] }, 15),
    ];
    let mut expected = String::new();
    for (place, (event, answer)) in list.iter().enumerate() {
        write_event(event, &mut tape);
        expected.push_str(&format!("{} {answer} 0\n", place + 7));
    }
    expected.push_str("total 1 0 0 1 0 0 0\n");
    assert!(run(&tape).ends_with(&expected));
}

/// An empty tape prints only the total; "a longer tape prints `too long` only".
#[test]
fn shortest_and_longest_tapes() {
    assert_eq!(run(&[]), "total 0 0 0 0 0 0 0\n");
    let longest = [2, 0].repeat(TAPE_BYTES / 2);
    assert_eq!(run(&longest).lines().count(), TAPE_BYTES / 2 + 1);
    assert_eq!(run(&[&longest[..], &[2]].concat()), "too long\n");
}

/// 'Open' in the total is as the table stands, overdue ones included.
#[test]
fn total_has_no_last_ageing() {
    let tape = sample();
    let until_interest = &tape[..tape.len() - 3];
    assert!(run(until_interest).ends_with("total 1 0 0 0 0 0 1\n"));
    let refused = [until_interest, &hex("04 84 20 09")].concat();
    assert!(run(&refused).ends_with("6 3 0\ntotal 1 0 0 0 0 0 1\n"));
}

/// Events are written as they are read.
#[test]
fn events_write_back() {
    for mode in MODES {
        let tape = generate(mode, 3).unwrap();
        let mut at = 0;
        while let Some((event, next)) = read_event(&tape, at) {
            let mut bytes = Vec::new();
            write_event(&event, &mut bytes);
            assert_eq!(bytes, &tape[at..next]);
            at = next;
        }
    }
}

/// Modes are the same for the same seed, keep the tape's size, and end now and then unreadable.
#[test]
fn modes_are_deterministic() {
    let mut unreadable = 0;
    for mode in MODES {
        for seed in 0..SEEDS {
            let tape = generate(mode, seed).unwrap();
            assert!(tape.len() <= TAPE_BYTES && tape.len() > TAPE_BYTES / 2, "{mode} {seed}");
            assert_eq!(tape, generate(mode, seed).unwrap());
            unreadable += usize::from(events(&tape).1.is_some());
        }
    }
    assert!(unreadable > 20);
    assert!(generate("no such mode", 1).is_none());
}

/// Calls `check` after every event of every generated tape, with the node before and after.
fn over_all_tapes(mut check: impl FnMut(&Node, &Event, &Outcome, &Node, &[u8])) {
    for tape in all_tapes() {
        let mut node = Node::new();
        for event in events(tape).0 {
            let before = node.clone();
            let mut buffer = vec![UNTOUCHED; LEAST_BUFFER];
            let outcome = node.step(&event, &mut buffer);
            check(&before, &event, &outcome, &node, &buffer);
        }
    }
}

/// What generated tapes reach.
#[derive(Default)]
struct Reached {
    answers: BTreeMap<u8, usize>,
    whats: BTreeMap<What, usize>,
    kinds: BTreeMap<(Kind, Class), usize>,
    reasons: BTreeSet<u64>,
    full_classes: BTreeSet<Class>,
    most_dead_lines: usize,
}

impl Reached {
    /// Counts one event.
    fn count(&mut self, outcome: &Outcome, node: &Node, buffer: &[u8]) {
        *self.answers.entry(outcome.answer.number()).or_default() += 1;
        for happening in &outcome.happenings {
            *self.whats.entry(happening.what).or_default() += 1;
        }
        for send in &outcome.sends {
            *self.kinds.entry((send.kind, send.class)).or_default() += 1;
            let bytes = &buffer[send.at..send.at + send.length];
            if let Meaning::Nack { reason, .. } = read(bytes).unwrap().meaning {
                self.reasons.insert(reason);
            }
        }
        if outcome.answer == Answer::NoRoom {
            let reserves: usize = CLASSES.into_iter().map(Class::reserve).sum();
            let most = |class: Class| PENDING - (reserves - class.reserve());
            let full = CLASSES.into_iter().filter(|&c| node.pending().used(c) == most(c));
            self.full_classes.extend(full);
        }
        self.most_dead_lines = self.most_dead_lines.max(node.dead().lines().len());
    }
}

/// The modes together reach every answer but 2, every kind of send in every class, every reason
/// and every kind of end.
#[test]
fn modes_reach_everything() {
    let mut reached = Reached::default();
    over_all_tapes(|_, _, outcome, node, buffer| reached.count(outcome, node, buffer));
    for number in (0..=16).filter(|&number| number != 2) {
        let times = reached.answers.get(&number).copied().unwrap_or(0);
        assert!(times >= 5, "answer {number}: {times} times");
    }
    let ends = [What::Answered, What::Nacked, What::Expired, What::Closed, What::SelfMet];
    for what in ends {
        let times = reached.whats.get(&what).copied().unwrap_or(0);
        assert!(times >= 50, "{what:?}: {times} times");
    }
    for kind in [Kind::Interest, Kind::Data, Kind::Nack] {
        assert!(CLASSES.iter().all(|&class| reached.kinds[&(kind, class)] >= 100));
    }
    assert_eq!(reached.reasons, BTreeSet::from([0, 50, 100, 150]));
    assert_eq!(reached.full_classes, BTreeSet::from(CLASSES));
    assert_eq!(reached.most_dead_lines, DEAD_NONCES);
}

/// Demand 3: after every event, for every face, opened = answered + Nacked + expired + closed +
/// self-met + open now.
#[test]
fn every_request_is_accounted_for() {
    let mut tally = Tally::default();
    over_all_tapes(|before, _, outcome, node, _| {
        if before == &Node::new() {
            tally = Tally::default();
        }
        tally.add_all(&outcome.happenings);
        for face in 1..=FACES {
            let counts = tally.of(face);
            assert_eq!(counts.opened, counts.ended() + node.pending().open_requests(face));
        }
    });
}

/// "No request ends twice": each end belongs to a request opened before and not ended since.
#[test]
fn no_request_ends_twice() {
    let mut open: BTreeSet<(u64, usize)> = BTreeSet::new();
    over_all_tapes(|before, _, outcome, node, _| {
        if before == &Node::new() {
            open.clear();
        }
        for happening in &outcome.happenings {
            let request = (happening.opening, happening.face);
            if happening.what == What::Opened {
                assert!(open.insert(request), "opened twice");
            } else {
                assert!(open.remove(&request), "ended without being open");
            }
        }
        let entries = &node.pending().entries;
        let standing = entries.iter().flat_map(|e| e.ins.keys().map(|&face| (e.opening, face)));
        assert_eq!(open, standing.collect());
    });
}

/// What happens to requests is told in order, expiries of ageing first, each part oldest opening
/// first and then by face; and of each request as it stood.
#[test]
fn happenings_are_in_order() {
    over_all_tapes(|before, event, outcome, node, _| {
        let key = |h: &Happening| (h.what != What::Expired, h.opening, h.face);
        assert!(outcome.happenings.windows(2).all(|pair| key(&pair[0]) < key(&pair[1])));
        for happening in &outcome.happenings {
            let stood = if happening.what == What::Opened { node } else { before };
            let mut entries = stood.pending().entries.iter();
            let entry = entries.find(|entry| entry.opening == happening.opening).unwrap();
            assert_eq!(happening.class, entry.class);
            assert_eq!(happening.request, entry.ins[&happening.face]);
            let over = happening.what == What::Expired;
            assert!(
                happening.what == What::Opened
                    || over == (event.time() >= happening.request.expiry)
            );
        }
    });
}

/// "A Data leaves on a face only to serve the Interest just received there from the cache, or to
/// end at least one matching, unexpired request of that face", and once.
#[test]
fn data_leaves_for_a_reason() {
    over_all_tapes(|before, event, outcome, _, buffer| {
        let mut faces = BTreeSet::new();
        for send in outcome.sends.iter().filter(|send| send.kind == Kind::Data) {
            assert!(faces.insert(send.face), "two copies to one face");
            let Event::Packet { face, bytes, .. } = *event else {
                panic!("a Data left without a packet coming in");
            };
            let sent = read(&buffer[send.at..send.at + send.length]).unwrap();
            match read(bytes).unwrap().meaning {
                Meaning::Interest(interest) => {
                    assert_eq!(face, send.face as u64);
                    assert!(sent.name().starts_with(interest.name));
                    assert!(outcome.happenings.iter().all(|h| h.what == What::Expired));
                }
                Meaning::Data(data) => {
                    let now = event.time();
                    assert!(before.pending().entries.iter().any(|entry| {
                        let request = entry.ins.get(&send.face);
                        entry.matches(data.name) && request.is_some_and(|r| now < r.expiry)
                    }));
                }
                Meaning::Nack { .. } => panic!("a Data left for a Nack"),
            }
        }
    });
}

/// Sends are packed from the start in ascending face order, each reads back to its kind, the rest
/// is untouched.
#[test]
fn sends_are_packed() {
    over_all_tapes(|_, _, outcome, _, buffer| {
        let mut used = 0;
        for (place, send) in outcome.sends.iter().enumerate() {
            let again = place > 0 && send.kind == Kind::Data;
            assert_eq!(send.at, if again { 0 } else { used });
            used = used.max(send.at + send.length);
            let kind = match read(&buffer[send.at..send.at + send.length]).unwrap().meaning {
                Meaning::Interest(_) => Kind::Interest,
                Meaning::Data(_) => Kind::Data,
                Meaning::Nack { .. } => Kind::Nack,
            };
            assert_eq!(kind, send.kind);
        }
        assert!(outcome.sends.windows(2).all(|pair| pair[0].face < pair[1].face));
        assert!(buffer[used..].iter().all(|&byte| byte == UNTOUCHED));
    });
}

/// "Answers 1 to 3 change nothing. Every other answer first moves the last time and ages the
/// tables; a refusal changes nothing more."
#[test]
fn refusals_only_age() {
    over_all_tapes(|before, event, outcome, node, _| {
        match outcome.answer {
            Answer::Done => {}
            Answer::Clock | Answer::SmallBuffer | Answer::BadFace => assert_eq!(before, node),
            _ => {
                let mut aged = before.clone();
                let mut buffer = vec![0; LEAST_BUFFER];
                let tick = aged.step(&Event::Tick { time: event.time() }, &mut buffer);
                assert_eq!(&aged, node);
                assert_eq!(tick.happenings, outcome.happenings);
            }
        }
        assert_eq!(node.last_time(), before.last_time().max(node.last_time()));
    });
}

/// Which sends go with which refusal: Nack 100, 150 or 50 to a point-to-point arrival face, else
/// none.
#[test]
fn refusals_send_their_nack_only() {
    over_all_tapes(|before, event, outcome, _, buffer| {
        let reason = match outcome.answer {
            Answer::Done => return,
            Answer::Loop => 100,
            Answer::NoRoute => 150,
            Answer::NoRoom => 50,
            _ => 0,
        };
        let Event::Packet { face, .. } = *event else {
            return assert!(outcome.sends.is_empty());
        };
        let link = Faces::number(face).and_then(|face| before.faces().get(face));
        let nacked = reason != 0 && link.is_some_and(|face| face.link == Link::PointToPoint);
        assert_eq!(outcome.sends.len(), usize::from(nacked));
        for send in &outcome.sends {
            let bytes = &buffer[send.at..send.at + send.length];
            assert_eq!(send.face as u64, face);
            assert!(matches!(
                read(bytes).unwrap().meaning,
                Meaning::Nack { reason: sent, .. } if sent == reason
            ));
        }
    });
}

/// "The class of the longest route for their name, or 3 if there is none."
fn class_by_name(node: &Node, name: &[u8]) -> Class {
    let matching = node.routes().as_set().iter().filter(|route| name.starts_with(&route.prefix));
    matching.max_by_key(|route| route.prefix.len()).map_or(Class::Bulk, |route| route.class)
}

/// The classes of the entries whose requests on a face this event ended in some way.
fn classes_ended(outcome: &Outcome, face: usize, what: What) -> BTreeSet<Class> {
    let ended = outcome.happenings.iter().filter(|h| h.what == what && h.face == face);
    ended.map(|happening| happening.class).collect()
}

/// The class of the pending entry of an Interest.
fn class_of_entry(node: &Node, interest: &Interest) -> Option<Class> {
    let mut entries = node.pending().entries.iter();
    entries.find(|entry| entry.is_for(interest)).map(|entry| entry.class)
}

/// Which of the rules a send is under, its class by that rule, and the class that another rule
/// would give it.
fn ruled(
    came: &Packet,
    sent: &Packet,
    outcome: &Outcome,
    node: &Node,
    face: usize,
) -> (&'static str, Class, Class) {
    let by_name = class_by_name(node, sent.name());
    match (came.meaning, sent.meaning) {
        (_, Meaning::Interest(interest)) => {
            ("Interest", class_of_entry(node, &interest).unwrap(), by_name)
        }
        (Meaning::Data(_), _) => {
            let classes = classes_ended(outcome, face, What::Answered);
            ("Data that ends", *classes.first().unwrap(), *classes.last().unwrap())
        }
        (Meaning::Nack { .. }, _) => {
            let classes = classes_ended(outcome, face, What::Nacked);
            ("Nack that ends", *classes.first().unwrap(), by_name)
        }
        (Meaning::Interest(interest), Meaning::Nack { .. }) => {
            ("Nack that refuses", by_name, class_of_entry(node, &interest).unwrap_or(by_name))
        }
        (Meaning::Interest(interest), Meaning::Data(_)) => {
            ("Data from the store", by_name, class_by_name(node, interest.name))
        }
    }
}

/// "A send takes the class of the entry it belongs to, the lowest if one Data ends requests of
/// several on that face; a refusal's Nack, and Data from the store, take the class of the longest
/// route for their name, or 3 if there is none"; each rule is told from the others.
#[test]
fn sends_carry_their_class() {
    let mut told_apart: BTreeMap<&str, usize> = BTreeMap::new();
    over_all_tapes(|_, event, outcome, node, buffer| {
        for send in &outcome.sends {
            let Event::Packet { bytes, .. } = *event else {
                panic!("a send without a packet coming in");
            };
            let came = read(bytes).unwrap();
            let sent = read(&buffer[send.at..send.at + send.length]).unwrap();
            let (rule, expected, other) = ruled(&came, &sent, outcome, node, send.face);
            assert_eq!(send.class, expected, "{rule}");
            *told_apart.entry(rule).or_default() += usize::from(expected != other);
        }
    });
    assert_eq!(told_apart.len(), 5);
    assert!(told_apart.values().all(|&times| times >= 50), "{told_apart:?}");
}

/// The tables keep their sizes, and no class holds more than 64 less the other reserves: 40, 32 and
/// 24.
#[test]
fn tables_keep_their_sizes() {
    over_all_tapes(|_, _, _, node, _| {
        assert!(node.pending().entries.len() <= PENDING);
        assert!(claimed(|class| node.pending().used(class)) <= PENDING);
        assert!(node.pending().used(Class::Alarm) <= 40);
        assert!(node.pending().used(Class::Monitoring) <= 32);
        assert!(node.pending().used(Class::Bulk) <= 24);
        assert!(node.routes().as_set().len() <= ROUTES);
        assert!(node.store().by_use().len() <= STORED);
        assert!(node.dead().lines().len() <= DEAD_NONCES);
        assert!(node.pending().entries.iter().all(|entry| !entry.ins.is_empty()));
    });
}

/// A step depends on the node and the event alone.
#[test]
fn steps_repeat() {
    over_all_tapes(|before, event, outcome, node, buffer| {
        let mut again = before.clone();
        let mut second = vec![UNTOUCHED; LEAST_BUFFER];
        assert_eq!(&again.step(event, &mut second), outcome);
        assert_eq!((&again, &second[..]), (node, buffer));
    });
}
