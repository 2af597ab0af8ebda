//! The entries on both sides of a key as of a stamp, met one after the other.

use crate::rank::Rank;
use crate::sector::Entry;

/// Those nearest to `key` among the entries stamped `t` or earlier.
pub struct Beside {
    pub key: u32,
    pub t: u32,
    at_most: Rank,
    above: Rank,
}

impl Beside {
    pub fn new(key: u32, t: u32) -> Beside {
        Beside { key, t, at_most: Rank::NONE, above: Rank::NONE }
    }

    /// Both questions are asked of every entry, without a way out: a guess at their answers would often
    /// be wrong.
    pub fn see(&mut self, place: usize, entry: Entry) {
        let (counts, above) = (entry.stamp <= self.t, entry.key > self.key);
        let lower = if counts & !above { Rank::of(entry.key, place) } else { Rank::NONE };
        let upper = if counts & above { Rank::falling(entry.key, place) } else { Rank::NONE };
        self.at_most = self.at_most.max(lower);
        self.above = self.above.max(upper);
    }

    /// The place of the last copy of the largest key not above `key`.
    pub fn at_most(&self) -> Option<usize> {
        self.at_most.place()
    }

    /// The place of the last copy of the smallest key above `key`.
    pub fn above(&self) -> Option<usize> {
        self.above.place()
    }
}
