//! A tape's numbers: "groups of seven bits, low first, top bit set on all but the last, shortest
//! form, at most 64 bits".

/// The number at `at` and the offset past it, or nothing if it is cut, not shortest or over 64
/// bits.
pub fn read_tape_number(bytes: &[u8], at: usize) -> Option<(u64, usize)> {
    let mut value: u64 = 0;
    let mut place = at;
    loop {
        let byte = *bytes.get(place)?;
        let group = u64::from(byte & 0x7F);
        let shift = 7 * (place - at) as u32;
        if shift > 63 || (group << shift) >> shift != group {
            return None;
        }
        value |= group << shift;
        place += 1;
        if byte & 0x80 == 0 {
            let shortest = byte != 0 || place - at == 1;
            return shortest.then_some((value, place));
        }
    }
}

/// Appends a number in its shortest form.
pub fn write_tape_number(value: u64, out: &mut Vec<u8>) {
    let mut rest = value;
    while rest > 0x7F {
        out.push(rest as u8 | 0x80);
        rest >>= 7;
    }
    out.push(rest as u8);
}
