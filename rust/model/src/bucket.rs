//! A bucket, judged and searched in one pass.

use crate::beside::Beside;
use crate::run::Run;
use crate::sector::{Bytes, Entry, INDEX};

/// A bucket searched for a key as of a stamp.
pub struct Searched<'a> {
    pub run: Run<'a>,
    beside: Beside,
}

impl<'a> Searched<'a> {
    /// A bucket holds only index entries, or only posts and strikes, and no key below its header; `None`
    /// is damage.
    pub fn judged(part: &'a [Bytes], buckets: u32, key: u32, t: u32) -> Option<Searched<'a>> {
        let first = Entry::of(part.first()?);
        let index = first.kind == INDEX;
        let mut beside = Beside::new(key, t);
        let run = Run::judged(part, |place, entry| {
            beside.see(place, entry);
            let sound = if index { entry.is_sound_index(buckets) } else { entry.is_sound_data() };
            sound && entry.key >= first.key
        })?;
        Some(Searched { run, beside })
    }

    /// The last copy of the largest key not above the one sought.
    pub fn at_most(&self) -> Option<Entry> {
        self.run.entry(self.beside.at_most()?)
    }

    /// The last copy of the smallest key above the one sought.
    pub fn above(&self) -> Option<Entry> {
        self.run.entry(self.beside.above()?)
    }

    /// The same for another key, as of the same stamp, where it is another.
    pub fn above_key(&self, key: u32) -> Option<Entry> {
        if key == self.beside.key {
            return self.above();
        }
        let mut beside = Beside::new(key, self.beside.t);
        self.run.entries().enumerate().for_each(|(place, entry)| beside.see(place, entry));
        self.run.entry(beside.above()?)
    }
}
