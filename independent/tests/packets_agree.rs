//! The product's packet reader, run as the built program `packetout`, against this program's own.

use independent::{packet_gen, packets};
use std::fs;
use std::io::Write;
use std::path::PathBuf;
use std::process::{Command, Stdio};

const SEEDS: u64 = 20;

/// A place in the product's repository.
fn product(path: &str) -> PathBuf {
    PathBuf::from(env!("CARGO_MANIFEST_DIR")).join("..").join(path)
}

/// What the built program writes for an input. The gate builds it before these tests run.
fn packetout(input: &[u8]) -> String {
    let mut child = Command::new(product("tools/run-built"))
        .arg("packetout")
        .stdin(Stdio::piped())
        .stdout(Stdio::piped())
        .spawn()
        .expect("tools/run-built starts");
    let mut pipe = child.stdin.take().expect("a pipe to the program");
    let bytes = input.to_vec();
    let writer = std::thread::spawn(move || pipe.write_all(&bytes));
    let output = child.wait_with_output().expect("the program ends");
    writer.join().expect("the writer ends").expect("the input is written");
    assert!(output.status.success(), "packetout is not built, or failed");
    String::from_utf8(output.stdout).expect("the output is text")
}

/// Line by line, what the product wrote is what this program writes.
fn same_lines(theirs: &str, input: &[u8], title: &str) -> usize {
    let ours = packets::run(input);
    for (place, (our, their)) in ours.lines().zip(theirs.lines()).enumerate() {
        assert_eq!(their, our, "{title}: line {} differs", place + 1);
    }
    assert_eq!(theirs, ours, "{title}: the outputs differ");
    ours.lines().count()
}

/// At least 20,000 packets, good and damaged, read to the same lines by both programs.
#[test]
fn generated_packets_agree() {
    let mut lines = 0;
    for seed in 1..=SEEDS {
        let input = packet_gen::generate(seed);
        lines += same_lines(&packetout(&input), &input, &format!("seed {seed}"));
    }
    assert!(lines >= 20_000, "only {lines} packets");
}

/// The packets from outside that are committed beside the product's program.
#[test]
fn outside_packets_agree() {
    let file =
        |name: &str| fs::read(product("crates/packetout").join(name)).expect("a committed file");
    let theirs = String::from_utf8(file("stdout")).expect("the output is text");
    assert!(same_lines(&theirs, &file("stdin"), "crates/packetout") > 20);
}

/// The ends of an input: an unreadable group, and more than 65,536 bytes.
#[test]
fn ends_agree() {
    for (input, title) in [
        (vec![0x80, 0x00], "not shortest"),
        (vec![5, 1], "cut"),
        (vec![0; 65_537], "too long"),
        (vec![], "empty"),
    ] {
        same_lines(&packetout(&input), &input, title);
    }
}
