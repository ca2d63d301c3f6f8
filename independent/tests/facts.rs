//! The facts of a run: known ones of small tapes, and `tapeout`'s lines made from them.

mod common;

use common::bench::{lasting, prefix, req, FAR, LOCAL};
use common::hex;
use common::tapes::{all_tapes, sample, tape_of};
use independent::build::{data, name, Request};
use independent::facts::run;
use independent::fingerprint::{fingerprint, STANDARD_START};
use independent::node::Event;
use independent::sizes::{DEAD_NONCES, TAPE_BYTES};
use independent::tape;
use std::collections::BTreeMap;
use std::io::Write;
use std::process::{Command, Stdio};

/// A dead line of a name and nonce.
fn dead(text: &str, nonce: u32, time: u64) -> String {
    let line = fingerprint(STANDARD_START, &name(text), &nonce.to_be_bytes());
    format!("dead {line} {time}")
}

/// The facts' lines that start with a word.
fn lines_of<'a>(facts: &'a str, word: &str) -> Vec<&'a str> {
    facts.lines().filter(|line| line.split(' ').next() == Some(word)).collect()
}

/// The facts of document 01's sample tape.
#[test]
fn facts_of_the_sample() {
    let expected = "event 0\nevent 0\nevent 0\nevent 0\n\
         event 0\nsend 2 1 1 050b07030801610a0401020304\nfate 1 1 1 16909060 4100\n\
         event 0\nfate 1 1 4 16909060 4100\n\
         time 4100\nface 1 1 0\nface 2 1 0\nroute 1 080161\nhop 2 10\n\
         dead 369723178066567577 4100\n";
    assert_eq!(run(&sample()), expected);
}

/// A packet event on a tape of steps.
fn packet(time: u64, face: u64, bytes: &[u8]) -> Vec<u8> {
    tape_of(&[Event::Packet { time, face, bytes }])
}

/// An Interest on a tape of steps.
fn ask(time: u64, face: u64, request: &Request) -> Vec<u8> {
    packet(time, face, &request.interest())
}

/// Faces of every link, and two routes: for every name in class 3, for /a in class 1.
fn faces_and_routes() -> Vec<u8> {
    let a = name("/a");
    tape_of(&[
        Event::Open { time: 0, face: 1, scope: FAR, link: 0 },
        Event::Open { time: 0, face: 2, scope: FAR, link: 0 },
        Event::Open { time: 0, face: 3, scope: LOCAL, link: 1 },
        Event::Open { time: 0, face: 16, scope: FAR, link: 2 },
        Event::SetRoute { time: 0, class: 3, prefix: &[] },
        Event::SetRoute { time: 0, class: 1, prefix: &a },
        Event::AddHop { time: 0, face: 2, cost: 10, prefix: &[] },
        Event::AddHop { time: 0, face: 16, cost: 0, prefix: &a },
        Event::AddHop { time: 0, face: 2, cost: 65_535, prefix: &a },
    ])
}

/// Steps over those faces and routes, each with its lines.
fn steps() -> Vec<(Vec<u8>, &'static str)> {
    let both = Request { must_be_fresh: true, ..lasting("/b", 0xFFFF_FFFF, 60_000) };
    let both = Request { can_be_prefix: true, ..both };
    let b_x = data(&name("/b/x"), Some(1_000), 0);
    vec![
        (
            ask(100, 1, &req("/a", 1)),
            "event 0\nsend 16 1 1 050b07030801610a0400000001\nfate 1 1 1 1 4100\n",
        ),
        (
            ask(100, 3, &both),
            "event 0\nsend 2 1 3 05130703080162210012000a04ffffffff0c02ea60\n\
             fate 3 3 1 4294967295 60100\n",
        ),
        (
            ask(200, 3, &req("/a", 2)),
            "event 0\nsend 2 1 1 050b07030801610a0400000002\nfate 3 1 1 2 4200\n",
        ),
        (ask(205, 1, &lasting("/a", 3, 5_000)), "event 0\n"),
        (packet(210, 2, &req("/a", 2).nack(7)), "event 0\n"),
        (
            packet(300, 2, &b_x),
            "event 0\nsend 3 2 3 061207060801620801781404190203e816001700\n\
             fate 3 3 2 4294967295 60100\n",
        ),
        (
            ask(310, 1, &prefix("/b", 5)),
            "event 0\nsend 1 2 3 061207060801620801781404190203e816001700\n",
        ),
        (
            ask(310, 1, &lasting("/c", 6, 0)),
            "event 0\nsend 2 1 3 050e07030801630a04000000060c0100\nfate 1 3 1 6 310\n",
        ),
        (
            tape_of(&[Event::Close { time: 320, face: 3 }]),
            "event 0\nfate 1 3 4 6 310\nfate 3 1 5 2 4200\n",
        ),
        (
            ask(330, 1, &req("/d", 7)),
            "event 0\nsend 2 1 3 050b07030801640a0400000007\nfate 1 3 1 7 4330\n",
        ),
        (packet(331, 1, &data(&name("/d"), None, 0)), "event 0\nfate 1 3 6 7 4330\n"),
        (
            ask(340, 1, &req("/e", 8)),
            "event 0\nsend 2 1 3 050b07030801650a0400000008\nfate 1 3 1 8 4340\n",
        ),
        (
            packet(341, 2, &req("/e", 8).nack(150)),
            "event 0\nsend 1 3 3 6418fd032005fd03210196500d050b07030801650a0400000008\n\
             fate 1 3 3 8 4340\n",
        ),
        (tape_of(&[Event::Close { time: 900, face: 9 }]), "event 3\n"),
        (packet(400, 1, &[5]), "event 5\n"),
        (
            ask(410, 1, &Request { hop_limit: Some(7), ..lasting("/f", 9, 1) }),
            "event 0\nsend 2 1 3 051107030801660a04000000090c0101220106\nfate 1 3 1 9 411\n",
        ),
    ]
}

/// The tables that the steps leave.
fn tables_of_steps() -> String {
    let tables = "time 410\nface 1 1 0\nface 2 1 0\nface 16 1 2\n\
         route 3 -\nhop 2 10\nroute 1 080161\nhop 2 65535\nhop 16 0\n\
         entry 1 0 0 080161\nin 1 3 5205\nout 2 2 200 0\nout 16 1 100 -\n\
         entry 3 0 0 080166\nin 1 9 411\nout 2 9 410 -\n\
         stored 300 1000 080162080178 061207060801620801781404190203e816001700\n\
         stored 331 0 080164 0609070308016416001700\n";
    let dead =
        [dead("/b", 0xFFFF_FFFF, 300), dead("/c", 6, 320), dead("/d", 7, 331), dead("/e", 8, 341)];
    format!("{tables}{}\n", dead.join("\n"))
}

/// A small tape of every fate, kind and table, its facts written out; then an unreadable event.
#[test]
fn facts_of_a_small_tape() {
    let mut tape = faces_and_routes();
    let mut expected = "event 0\n".repeat(9);
    for (bytes, lines) in steps() {
        tape.extend(bytes);
        expected.push_str(lines);
    }
    let readable = format!("{expected}{}", tables_of_steps());
    assert_eq!(run(&tape), readable);
    let offset = tape.len();
    tape.extend([2, 0x80]);
    let unreadable = format!("{expected}bad {offset}\n{}", tables_of_steps());
    assert_eq!(run(&tape), unreadable);
}

/// The shortest tape has only its time, a tape that is too long no fact at all.
#[test]
fn shortest_and_longest_tapes() {
    assert_eq!(run(&[]), "time 0\n");
    assert_eq!(run(&[0]), "bad 0\ntime 0\n");
    let longest = [2, 0].repeat(TAPE_BYTES / 2);
    assert_eq!(run(&longest), "event 0\n".repeat(TAPE_BYTES / 2) + "time 0\n");
    assert_eq!(run(&[&longest[..], &[2]].concat()), "too long\n");
}

/// Routes stand in the order in which they were first set; a dropped one is first set anew.
#[test]
fn order_of_routes() {
    let [a, b, c] = ["/a", "/b", "/c"].map(name);
    let set = |class, prefix| Event::SetRoute { time: 0, class, prefix };
    let mut events = vec![set(1, &b[..]), set(2, &a), set(3, &c), set(2, &b)];
    let in_order = ["route 2 080162", "route 2 080161", "route 3 080163"];
    assert_eq!(lines_of(&run(&tape_of(&events)), "route"), in_order);
    events.extend([Event::DropRoute { time: 0, prefix: &b }, set(1, &b)]);
    let in_order = ["route 2 080161", "route 3 080163", "route 1 080162"];
    assert_eq!(lines_of(&run(&tape_of(&events)), "route"), in_order);
}

/// Stored Data stand least recently stored or hit first; entries by their own opening, though
/// renewed.
#[test]
fn order_of_store_and_entries() {
    let mut tape = faces_and_routes();
    for text in ["/x", "/y", "/z"] {
        tape.extend(ask(0, 1, &req(text, 1)));
        tape.extend(packet(0, 2, &data(&name(text), None, 0)));
    }
    tape.extend(ask(1, 1, &req("/x", 2)));
    for (time, nonce) in [(2, 3), (3, 4)] {
        tape.extend(ask(time, 1, &req("/p", nonce)));
        tape.extend(ask(time, 1, &req("/o", nonce)));
    }
    tape.extend(ask(4, 1, &req("/p", 5)));
    let facts = run(&tape);
    let names: Vec<&str> = lines_of(&facts, "stored")
        .into_iter()
        .map(|line| line.split(' ').nth(3).unwrap())
        .collect();
    assert_eq!(names, ["080179", "08017a", "080178"]);
    assert_eq!(lines_of(&facts, "entry"), ["entry 3 0 0 080170", "entry 3 0 0 08016f"]);
    assert_eq!(lines_of(&facts, "in"), ["in 1 5 4004", "in 1 4 4003"]);
}

/// Dead lines stay past their 6,000 ms, equal ones too, and until the 257th overwrites the oldest.
#[test]
fn dead_lines_stay() {
    let mut tape = faces_and_routes();
    for time in [0, 10_000] {
        tape.extend(ask(time, 1, &lasting("/a", 7, 0)));
        tape.extend(tape_of(&[Event::Tick { time: time + 1 }]));
    }
    let first = [dead("/a", 7, 1), dead("/a", 7, 10_001)];
    assert_eq!(lines_of(&run(&tape), "dead"), [&first[0][..], &first[1]]);
    for n in 0..DEAD_NONCES as u64 - 1 {
        tape.extend(ask(20_000, 1, &lasting("/n", n, 0)));
    }
    tape.extend(tape_of(&[Event::Tick { time: 20_000 }]));
    let facts = run(&tape);
    let lines = lines_of(&facts, "dead");
    assert_eq!(lines.len(), DEAD_NONCES);
    assert_eq!(lines[..2], [&first[1][..], &dead("/n", 0, 20_000)]);
    assert_eq!(lines[255], dead("/n", 254, 20_000));
}

/// What `tapeout` prints, made from the facts alone.
fn tapeout_of(facts: &str) -> String {
    let lines: Vec<Vec<&str>> = facts.lines().map(|line| line.split(' ').collect()).collect();
    let (mut text, mut position, mut open, mut fates) = (String::new(), 0, 0, [0; 6]);
    for (at, words) in lines.iter().enumerate() {
        match words[0] {
            "event" => {
                position += 1;
                let sends = lines[at + 1..].iter().take_while(|next| next[0] == "send").count();
                text.push_str(&format!("{position} {} {sends}\n", words[1]));
            }
            "send" => {
                let length = hex(words[4]).len();
                text.push_str(&format!("> {} {} {length}\n", words[1], words[2]));
            }
            "fate" => fates[words[3].parse::<usize>().unwrap() - 1] += 1,
            "bad" => text.push_str(&format!("bad {}\n", words[1])),
            "in" => open += 1,
            _ => {}
        }
    }
    let [opened, answered, nacked, expired, closed, self_met] = fates;
    text + &format!("total {opened} {answered} {nacked} {expired} {closed} {self_met} {open}\n")
}

/// On every generated tape `tapeout`'s lines, lengths and total are those that the facts give.
#[test]
fn tapeout_follows_from_the_facts() {
    for tape in all_tapes() {
        assert_eq!(tapeout_of(&run(tape)), tape::run(tape));
    }
}

/// On every generated tape, by face and class, what was opened has ended or stands in an entry.
#[test]
fn fates_and_tables_balance() {
    for tape in all_tapes() {
        let mut open: BTreeMap<(String, String), i64> = BTreeMap::new();
        let mut class_of_entry = String::new();
        for line in run(tape).lines() {
            let words: Vec<String> = line.split(' ').map(str::to_string).collect();
            match &words[0][..] {
                "fate" => {
                    let change = if words[3] == "1" { 1 } else { -1 };
                    *open.entry((words[1].clone(), words[2].clone())).or_default() += change;
                }
                "entry" => class_of_entry = words[1].clone(),
                "in" => *open.entry((words[1].clone(), class_of_entry.clone())).or_default() -= 1,
                _ => {}
            }
        }
        assert!(open.values().all(|&left| left == 0));
    }
}

/// The program prints the facts of the tape on its standard input.
#[test]
fn program() {
    let mut child = Command::new(env!("CARGO_BIN_EXE_tapefacts"))
        .stdin(Stdio::piped())
        .stdout(Stdio::piped())
        .spawn()
        .expect("the program starts");
    child.stdin.take().expect("a pipe").write_all(&sample()).expect("the tape is written");
    let output = child.wait_with_output().expect("the program ends");
    assert!(output.status.success());
    assert_eq!(String::from_utf8(output.stdout).expect("text"), run(&sample()));
}
