//! The pending table: entries with the requests that came in and what was sent out for them.

use super::class::Class;
use super::face::FaceNumber;
use crate::name::{is_prefix, is_same};
use crate::packet::Interest;
use std::collections::BTreeMap;

/// "If the newest out-record was sent under 100 ms ago, send nothing."
const SUPPRESSED_FOR: u64 = 100;

/// The four bytes of a nonce.
pub type Nonce = [u8; 4];

/// A request: "an in-record (the request: nonce, expiry)".
#[derive(Clone, Copy, Debug, PartialEq, Eq)]
pub struct InRecord {
    pub nonce: Nonce,
    pub expiry: u64,
}

/// "An out-record (nonce, send time, Nack reason)."
#[derive(Clone, Copy, Debug, PartialEq, Eq)]
pub struct OutRecord {
    pub nonce: Nonce,
    pub sent: u64,
    pub nacked: Option<u64>,
}

/// "An entry is known by name and both flags", and keeps its records by face.
#[derive(Clone, Debug, PartialEq, Eq)]
pub struct Entry {
    /// Which opening of the node's history made it, from 0.
    pub opening: u64,
    pub name: Vec<u8>,
    pub can_be_prefix: bool,
    pub must_be_fresh: bool,
    pub class: Class,
    pub ins: BTreeMap<FaceNumber, InRecord>,
    pub outs: BTreeMap<FaceNumber, OutRecord>,
}

impl Entry {
    /// An entry for an Interest, still without records.
    pub fn new(opening: u64, interest: &Interest, class: Class) -> Entry {
        Entry {
            opening,
            name: interest.name.to_vec(),
            can_be_prefix: interest.can_be_prefix,
            must_be_fresh: interest.must_be_fresh,
            class,
            ins: BTreeMap::new(),
            outs: BTreeMap::new(),
        }
    }

    /// "An entry is known by name and both flags."
    pub fn is_for(&self, interest: &Interest) -> bool {
        is_same(&self.name, interest.name)
            && self.can_be_prefix == interest.can_be_prefix
            && self.must_be_fresh == interest.must_be_fresh
    }

    /// "Data matches an entry of equal name, or with CanBePrefix and a name that is its prefix."
    pub fn matches(&self, data_name: &[u8]) -> bool {
        is_same(&self.name, data_name) || self.can_be_prefix && is_prefix(&self.name, data_name)
    }

    /// Whether any record has the nonce: any face's in-record, or any out-record.
    pub fn has_nonce(&self, nonce: Nonce) -> bool {
        self.ins.values().any(|record| record.nonce == nonce)
            || self.outs.values().any(|record| record.nonce == nonce)
    }

    /// Whether this face's own in-record has the nonce.
    pub fn has_own_nonce(&self, face: FaceNumber, nonce: Nonce) -> bool {
        self.ins.get(&face).is_some_and(|record| record.nonce == nonce)
    }

    /// "The newest out-record was sent under 100 ms ago."
    pub fn is_suppressed(&self, now: u64) -> bool {
        let newest = self.outs.values().map(|record| record.sent).max();
        newest.is_some_and(|sent| now.saturating_sub(sent) < SUPPRESSED_FOR)
    }

    /// "A send sets the out-record anew, its Nack reason cleared."
    pub fn record_send(&mut self, face: FaceNumber, nonce: Nonce, now: u64) {
        self.outs.insert(face, OutRecord { nonce, sent: now, nacked: None });
    }

    /// "The smallest nonzero reason, or 0", if all out-records are Nacked.
    pub fn reason_if_all_nacked(&self) -> Option<u64> {
        let reasons: Option<Vec<u64>> = self.outs.values().map(|record| record.nacked).collect();
        reasons.map(|reasons| reasons.into_iter().filter(|&r| r != 0).min().unwrap_or(0))
    }
}

/// The entries, oldest opening first.
#[derive(Clone, Debug, PartialEq, Eq, Default)]
pub struct Pending {
    pub entries: Vec<Entry>,
}

impl Pending {
    /// The entry of an Interest.
    pub fn find(&self, interest: &Interest) -> Option<&Entry> {
        self.entries.iter().find(|entry| entry.is_for(interest))
    }

    /// The entry of an Interest, to be changed.
    pub fn find_mut(&mut self, interest: &Interest) -> Option<&mut Entry> {
        self.entries.iter_mut().find(|entry| entry.is_for(interest))
    }

    /// How many entries opened in a class are pending.
    pub fn used(&self, class: Class) -> usize {
        self.entries.iter().filter(|entry| entry.class == class).count()
    }

    /// Takes out the entries that pass, oldest opening first.
    pub fn take(&mut self, passes: impl Fn(&Entry) -> bool) -> Vec<Entry> {
        let (taken, kept) = self.entries.drain(..).partition(|entry| passes(entry));
        self.entries = kept;
        taken
    }

    /// How many requests of a face stand in the table.
    pub fn open_requests(&self, face: FaceNumber) -> u64 {
        self.entries.iter().filter(|entry| entry.ins.contains_key(&face)).count() as u64
    }
}
