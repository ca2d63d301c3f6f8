//! Elements as trees: put together by the builders, damaged by the packet generator, and encoded.

use crate::tlv::{number_width, write_number};

/// An element to be written: its type, and either plain bytes or elements within.
#[derive(Clone, Debug)]
pub struct Tree {
    pub kind: u64,
    pub body: Body,
}

/// What an element holds.
#[derive(Clone, Debug)]
pub enum Body {
    Bytes(Vec<u8>),
    Children(Vec<Tree>),
}

/// An element that holds plain bytes.
pub fn leaf(kind: u64, value: &[u8]) -> Tree {
    Tree { kind, body: Body::Bytes(value.to_vec()) }
}

/// An element that holds elements.
pub fn branch(kind: u64, children: Vec<Tree>) -> Tree {
    Tree { kind, body: Body::Children(children) }
}

impl Tree {
    /// The bytes of the element.
    pub fn encode(&self) -> Vec<u8> {
        self.encode_with_long_number(usize::MAX)
    }

    /// The bytes of the element, its n-th type or length number written longer than needed.
    pub fn encode_with_long_number(&self, which: usize) -> Vec<u8> {
        let mut out = Vec::new();
        self.encode_into(which, &mut 0, &mut out);
        out
    }

    /// Appends the element; `passed` is how many numbers have been written.
    fn encode_into(&self, which: usize, passed: &mut usize, out: &mut Vec<u8>) {
        let (long_type, long_length) = (*passed == which, *passed + 1 == which);
        *passed += 2;
        let mut value = Vec::new();
        match &self.body {
            Body::Bytes(bytes) => value.extend_from_slice(bytes),
            Body::Children(children) => {
                for child in children {
                    child.encode_into(which, passed, &mut value);
                }
            }
        }
        write_number_as(self.kind, long_type, out);
        write_number_as(value.len() as u64, long_length, out);
        out.extend_from_slice(&value);
    }

    /// The elements directly within.
    fn within(&self) -> &[Tree] {
        match &self.body {
            Body::Bytes(_) => &[],
            Body::Children(children) => children,
        }
    }

    /// How many elements there are, this one and all within.
    pub fn size(&self) -> usize {
        1 + self.within().iter().map(Tree::size).sum::<usize>()
    }

    /// How many elements hold elements, this one and all within.
    pub fn branches(&self) -> usize {
        let own = usize::from(matches!(self.body, Body::Children(_)));
        own + self.within().iter().map(Tree::branches).sum::<usize>()
    }

    /// The n-th element, counted from 0, parents before their children.
    pub fn nth(&mut self, n: usize) -> Option<&mut Tree> {
        if n == 0 {
            return Some(self);
        }
        let Body::Children(children) = &mut self.body else {
            return None;
        };
        let mut left = n - 1;
        for child in children {
            let size = child.size();
            if left < size {
                return child.nth(left);
            }
            left -= size;
        }
        None
    }

    /// The n-th list of children, counted from 0, parents before their children.
    pub fn nth_branch(&mut self, n: usize) -> Option<&mut Vec<Tree>> {
        let Body::Children(children) = &mut self.body else {
            return None;
        };
        if n == 0 {
            return Some(children);
        }
        let mut left = n - 1;
        for child in children {
            let branches = child.branches();
            if left < branches {
                return child.nth_branch(left);
            }
            left -= branches;
        }
        None
    }
}

/// Appends a number, in the next longer form if it is to be too long.
fn write_number_as(value: u64, too_long: bool, out: &mut Vec<u8>) {
    let all = value.to_be_bytes();
    match (too_long, number_width(value)) {
        (true, 1) => {
            out.push(253);
            out.extend_from_slice(&all[6..]);
        }
        (true, 3) => {
            out.push(254);
            out.extend_from_slice(&all[4..]);
        }
        (true, 5) => {
            out.push(255);
            out.extend_from_slice(&all);
        }
        _ => write_number(value, out),
    }
}
