//! TLV variable numbers, elements and whole numbers, as document 01 reads and writes them.

/// "Type is 1 to 2^32-1."
pub const GREATEST_TYPE: u64 = 0xFFFF_FFFF;

/// A TLV variable number as read: its value and how many bytes it took.
#[derive(Clone, Copy, Debug, PartialEq, Eq)]
pub struct Number {
    pub value: u64,
    pub width: usize,
}

/// An element as read: its places are offsets in the parent's bytes.
#[derive(Clone, Copy, Debug, PartialEq, Eq)]
pub struct Element<'a> {
    pub kind: u64,
    pub at: usize,
    pub value_at: usize,
    pub value: &'a [u8],
    pub next: usize,
}

/// The bytes are no element: the grammar is broken.
#[derive(Clone, Copy, Debug, PartialEq, Eq)]
pub struct Broken;

/// How many bytes the shortest form of a number takes: 1, 3, 5 or 9.
pub fn number_width(value: u64) -> usize {
    match value {
        0..=252 => 1,
        253..=0xFFFF => 3,
        0x1_0000..=0xFFFF_FFFF => 5,
        _ => 9,
    }
}

/// "TLV variable numbers of 1, 3, 5 or 9 bytes, shortest form only": the one at the start of
/// `bytes`.
pub fn read_number(bytes: &[u8]) -> Option<Number> {
    let first = *bytes.first()?;
    let width = match first {
        0..=252 => 1,
        253 => 3,
        254 => 5,
        255 => 9,
    };
    let value = if width == 1 { u64::from(first) } else { big_endian(bytes.get(1..width)?) };
    (number_width(value) == width).then_some(Number { value, width })
}

/// Appends a number in its shortest form.
pub fn write_number(value: u64, out: &mut Vec<u8>) {
    let all = value.to_be_bytes();
    match number_width(value) {
        1 => out.push(all[7]),
        3 => {
            out.push(253);
            out.extend_from_slice(&all[6..]);
        }
        5 => {
            out.push(254);
            out.extend_from_slice(&all[4..]);
        }
        _ => {
            out.push(255);
            out.extend_from_slice(&all);
        }
    }
}

/// "Each element ends within its parent": the element that starts at offset `at` of `parent`.
pub fn read_element(parent: &[u8], at: usize) -> Result<Element<'_>, Broken> {
    let kind = read_number(parent.get(at..).ok_or(Broken)?).ok_or(Broken)?;
    if kind.value == 0 || kind.value > GREATEST_TYPE {
        return Err(Broken);
    }
    let length_at = at + kind.width;
    let length = read_number(&parent[length_at..]).ok_or(Broken)?;
    let value_at = length_at + length.width;
    let room = parent.len() - value_at;
    if length.value > room as u64 {
        return Err(Broken);
    }
    let next = value_at + length.value as usize;
    Ok(Element { kind: kind.value, at, value_at, value: &parent[value_at..next], next })
}

/// Appends an element of type `kind` that holds `value`.
pub fn write_element(kind: u64, value: &[u8], out: &mut Vec<u8>) {
    write_number(kind, out);
    write_number(value.len() as u64, out);
    out.extend_from_slice(value);
}

/// The elements of a parent one after the other; after a broken one there is nothing more.
pub struct Elements<'a> {
    parent: &'a [u8],
    at: usize,
}

/// Walks over the elements that fill `parent`.
pub fn elements(parent: &[u8]) -> Elements<'_> {
    Elements { parent, at: 0 }
}

impl<'a> Iterator for Elements<'a> {
    type Item = Result<Element<'a>, Broken>;

    /// The next element, or the one mark that the rest is broken.
    fn next(&mut self) -> Option<Self::Item> {
        if self.at == self.parent.len() {
            return None;
        }
        let element = read_element(self.parent, self.at);
        self.at = element.map_or(self.parent.len(), |e| e.next);
        Some(element)
    }
}

/// "Whole numbers in elements take 1, 2, 4 or 8 bytes": the number an element's value holds.
pub fn read_whole_number(value: &[u8]) -> Option<u64> {
    matches!(value.len(), 1 | 2 | 4 | 8).then(|| big_endian(value))
}

/// The fewest of 1, 2, 4 or 8 bytes that hold a whole number.
pub fn write_whole_number(value: u64) -> Vec<u8> {
    let all = value.to_be_bytes();
    let width = match value {
        0..=0xFF => 1,
        0x100..=0xFFFF => 2,
        0x1_0000..=0xFFFF_FFFF => 4,
        _ => 8,
    };
    all[8 - width..].to_vec()
}

/// The number that at most eight bytes give, most significant first.
pub fn big_endian(bytes: &[u8]) -> u64 {
    bytes.iter().fold(0, |sum, &byte| sum << 8 | u64::from(byte))
}
