//! The 64-bit FNV-1a fingerprint of a name and a nonce.

/// "Start at 14695981039346656037."
pub const STANDARD_START: u64 = 14_695_981_039_346_656_037;
/// "Multiply by 1099511628211 modulo 2^64."
pub const PRIME: u64 = 1_099_511_628_211;

/// "For each byte xor, then multiply by 1099511628211 modulo 2^64", from a given start.
pub fn fnv1a(start: u64, bytes: &[u8]) -> u64 {
    bytes.iter().fold(start, |sum, &byte| (sum ^ u64::from(byte)).wrapping_mul(PRIME))
}

/// "64-bit FNV-1a over the name's value bytes, then the nonce", from a given start.
pub fn fingerprint(start: u64, name: &[u8], nonce: &[u8]) -> u64 {
    fnv1a(fnv1a(start, name), nonce)
}
