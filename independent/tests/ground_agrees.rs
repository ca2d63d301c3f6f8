//! The product's committed "ground" output against this program's own.

use independent::ground;
use std::collections::BTreeSet;
use std::fs;
use std::path::PathBuf;

/// A committed file of the product's program that prints the ground.
fn committed(file: &str) -> Vec<u8> {
    let path = PathBuf::from(env!("CARGO_MANIFEST_DIR")).join("../crates/groundout").join(file);
    fs::read(&path).unwrap_or_else(|fault| panic!("{}: {fault}", path.display()))
}

/// Line by line the committed output is this program's own for the committed input.
#[test]
fn ground_agrees() {
    let ours = ground::run(&committed("stdin"));
    let theirs = String::from_utf8(committed("stdout")).expect("the output is text");
    for (place, (our, their)) in ours.lines().zip(theirs.lines()).enumerate() {
        assert_eq!(their, our, "line {} differs", place + 1);
    }
    assert_eq!(theirs.lines().count(), ours.lines().count(), "one output has more lines");
    assert_eq!(theirs, ours, "the outputs differ in how their lines end");
}

/// The committed input reaches every operation and each kind of answer.
#[test]
fn committed_input_reaches_every_answer() {
    let text = ground::run(&committed("stdin"));
    let mut kinds = BTreeSet::new();
    for line in text.lines() {
        kinds.insert(kind_of_answer(line));
    }
    let wanted = [
        "1 width 1",
        "1 width 3",
        "1 width 5",
        "1 width 9",
        "1 bad",
        "2 good",
        "2 bad",
        "3 0",
        "3 5",
        "3 6",
        "4 0 0 0",
        "4 0 0 2",
        "4 0 1 0",
        "4 1 1 1",
        "5 0",
        "5 1",
        "5 2",
        "6",
        "7",
        "8 width 1",
        "8 width 3",
        "8 width 5",
        "8 width 9",
        "bad",
    ];
    for kind in wanted {
        assert!(kinds.contains(kind), "no answer of the kind '{kind}'");
    }
}

/// What a line says, without the numbers that only differ in size.
fn kind_of_answer(line: &str) -> String {
    let words: Vec<&str> = line.split(' ').collect();
    match words[0] {
        "1" | "2" if words[1] == "bad" => line.to_string(),
        "1" => format!("1 width {}", words[2]),
        "2" => "2 good".to_string(),
        "3" => words[..2].join(" "),
        "4" | "5" => line.to_string(),
        "8" => format!("8 width {}", words.len() - 1),
        other => other.to_string(),
    }
}
