//! The store of Data.

use crate::name::{canonical_order, is_prefix, is_same};
use crate::sizes::STORED;

/// One stored Data: as it leaves, when it was stored and for how long it is fresh.
#[derive(Clone, Debug, PartialEq, Eq)]
pub struct Stored {
    pub name: Vec<u8>,
    pub bytes: Vec<u8>,
    pub stored_at: u64,
    pub freshness: u64,
}

/// What a lookup asks for.
#[derive(Clone, Copy, Debug)]
pub struct Wanted<'a> {
    pub name: &'a [u8],
    pub can_be_prefix: bool,
    pub must_be_fresh: bool,
}

/// The stored Data, least recently stored or hit first.
#[derive(Clone, Debug, PartialEq, Eq, Default)]
pub struct Store {
    by_use: Vec<Stored>,
}

impl Stored {
    /// "An equal name, with CanBePrefix also any name extending it, and with MustBeFresh only while
    /// now < storing time + freshness."
    fn may_serve(&self, wanted: &Wanted, now: u64) -> bool {
        let named = if wanted.can_be_prefix {
            is_prefix(wanted.name, &self.name)
        } else {
            is_same(wanted.name, &self.name)
        };
        named && (!wanted.must_be_fresh || now < self.stored_at + self.freshness)
    }
}

impl Store {
    /// "The store replaces an equal name, else, when full, evicts the least recently stored or
    /// hit."
    pub fn put(&mut self, name: &[u8], bytes: &[u8], stored_at: u64, freshness: u64) {
        let equal = self.by_use.iter().position(|stored| is_same(&stored.name, name));
        match equal {
            Some(at) => {
                self.by_use.remove(at);
            }
            None if self.by_use.len() == STORED => {
                self.by_use.remove(0);
            }
            None => {}
        }
        let (name, bytes) = (name.to_vec(), bytes.to_vec());
        self.by_use.push(Stored { name, bytes, stored_at, freshness });
    }

    /// "Of those it takes the first in canonical order"; a hit makes it the most recently used.
    pub fn hit(&mut self, wanted: &Wanted, now: u64) -> Option<&Stored> {
        let serving = (0..self.by_use.len()).filter(|&at| self.by_use[at].may_serve(wanted, now));
        let first =
            serving.min_by(|&a, &b| canonical_order(&self.by_use[a].name, &self.by_use[b].name))?;
        let hit = self.by_use.remove(first);
        self.by_use.push(hit);
        self.by_use.last()
    }

    /// The stored Data, least recently stored or hit first.
    pub fn by_use(&self) -> &[Stored] {
        &self.by_use
    }
}
