//! The comparison format "ground": groups of an operation and its fields in, one line each out.

use crate::answer::Answer;
use crate::fingerprint::{fingerprint, fnv1a, STANDARD_START};
use crate::name::{canonical_order, count_components, is_prefix, is_same, reach, Reach};
use crate::packet::Refusal;
use crate::tlv::{big_endian, read_element, read_number, write_number};
use std::cmp::Ordering;

/// What a group asks for; the number is the group's first byte.
pub const NUMBER: u8 = 1;
pub const ELEMENT: u8 = 2;
pub const NAME: u8 = 3;
pub const PAIR: u8 = 4;
pub const REACH: u8 = 5;
pub const FINGERPRINT: u8 = 6;
pub const FNV: u8 = 7;
pub const WRITE_NUMBER: u8 = 8;

/// A group as read: its operation, its one or two fields, and where the next group starts.
struct Group<'a> {
    op: u8,
    first: &'a [u8],
    second: &'a [u8],
    next: usize,
}

/// The whole run: one line for each group, and a last `bad OFFSET` at an unreadable one.
pub fn run(input: &[u8]) -> String {
    let mut text = String::new();
    let mut at = 0;
    while at < input.len() {
        match read_group(input, at) {
            Some(group) => {
                text.push_str(&answer(&group));
                at = group.next;
            }
            None => {
                text.push_str(&format!("bad {at}"));
                at = input.len();
            }
        }
        text.push('\n');
    }
    text
}

/// Appends a group of one field.
pub fn write_one(op: u8, field: &[u8], out: &mut Vec<u8>) {
    out.push(op);
    write_field(field, out);
}

/// Appends a group of two fields.
pub fn write_two(op: u8, first: &[u8], second: &[u8], out: &mut Vec<u8>) {
    write_one(op, first, out);
    write_field(second, out);
}

/// Appends a field: a two-byte length, most significant first, and the bytes.
fn write_field(field: &[u8], out: &mut Vec<u8>) {
    let length = u16::try_from(field.len()).expect("a field has at most 65,535 bytes");
    out.extend_from_slice(&length.to_be_bytes());
    out.extend_from_slice(field);
}

/// The group at `at`, or nothing if its operation is unknown or a field reaches past the end.
fn read_group(input: &[u8], at: usize) -> Option<Group<'_>> {
    let op = *input.get(at)?;
    if !(NUMBER..=WRITE_NUMBER).contains(&op) {
        return None;
    }
    let (first, mut next) = read_field(input, at + 1)?;
    let mut second: &[u8] = &[];
    if op == PAIR || op == FINGERPRINT {
        (second, next) = read_field(input, next)?;
    }
    Some(Group { op, first, second, next })
}

/// The field at `at` and the offset past it.
fn read_field(input: &[u8], at: usize) -> Option<(&[u8], usize)> {
    let value_at = at + 2;
    let length = big_endian(input.get(at..value_at)?) as usize;
    let next = value_at + length;
    Some((input.get(value_at..next)?, next))
}

/// The line for one group, without its end.
fn answer(group: &Group) -> String {
    match group.op {
        NUMBER => number_line(group.first),
        ELEMENT => element_line(group.first),
        NAME => name_line(group.first),
        PAIR => pair_line(group.first, group.second),
        REACH => reach_line(group.first),
        FINGERPRINT => format!("6 {}", fingerprint(STANDARD_START, group.first, group.second)),
        FNV => format!("7 {}", fnv1a(STANDARD_START, group.first)),
        _ => written_line(group.first),
    }
}

/// `1 VALUE WIDTH` or `1 bad`.
fn number_line(bytes: &[u8]) -> String {
    match read_number(bytes) {
        Some(number) => format!("1 {} {}", number.value, number.width),
        None => "1 bad".to_string(),
    }
}

/// `2 TYPE VALUE_AT VALUE_LEN NEXT` or `2 bad`.
fn element_line(bytes: &[u8]) -> String {
    match read_element(bytes, 0) {
        Ok(found) => {
            format!("2 {} {} {} {}", found.kind, found.value_at, found.value.len(), found.next)
        }
        Err(_) => "2 bad".to_string(),
    }
}

/// `3 0 COUNT`, `3 5` or `3 6`.
fn name_line(name: &[u8]) -> String {
    match count_components(name) {
        Ok(count) => format!("3 {} {count}", Answer::Done.number()),
        Err(fault) => format!("3 {}", Refusal::from(fault).number()),
    }
}

/// `4 SAME PREFIX ORDER`.
fn pair_line(a: &[u8], b: &[u8]) -> String {
    let order = match canonical_order(a, b) {
        Ordering::Less => 0,
        Ordering::Equal => 1,
        Ordering::Greater => 2,
    };
    format!("4 {} {} {}", u8::from(is_same(a, b)), u8::from(is_prefix(a, b)), order)
}

/// `5 1` under /localhost, `5 2` under /localhop, else `5 0`.
fn reach_line(name: &[u8]) -> String {
    let reach = match reach(name) {
        Reach::Localhost => 1,
        Reach::Localhop => 2,
        Reach::Anywhere => 0,
    };
    format!("5 {reach}")
}

/// `8` and the bytes of the number in shortest form, each in decimal.
fn written_line(number: &[u8]) -> String {
    let mut written = Vec::new();
    write_number(big_endian(number), &mut written);
    let mut line = "8".to_string();
    for byte in written {
        line.push_str(&format!(" {byte}"));
    }
    line
}
