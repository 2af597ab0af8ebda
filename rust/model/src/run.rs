//! The written run of a bucket or of the log: sectors from its start on, at least one, then blanks.

use crate::blank::all_blank;
use crate::sector::{Bytes, Entry, INDEX};

/// The written run of a bucket or log that is not damaged.
#[derive(Clone, Copy)]
pub struct Run<'a> {
    written: &'a [Bytes],
    blanks: usize,
}

impl<'a> Run<'a> {
    /// `None` unless the written sectors are a run from the start, at least one, then blanks, and each of
    /// them is `sound`, which also sees its place.
    pub fn judged(part: &'a [Bytes], mut sound: impl FnMut(usize, Entry) -> bool) -> Option<Run<'a>> {
        let mut end = part.len();
        for (place, sector) in part.iter().enumerate() {
            let entry = Entry::of(sector);
            if entry.kind == 0 {
                // whether this one is blank, and all behind it, is asked at one go below
                end = place;
                break;
            }
            if !sound(place, entry) {
                return None;
            }
        }
        let (written, rest) = part.split_at(end);
        (end > 0 && all_blank(rest)).then_some(Run { written, blanks: rest.len() })
    }

    /// A bucket that was judged before.
    pub fn known(part: &'a [Bytes]) -> Run<'a> {
        let end = part.iter().position(|sector| Entry::of(sector).kind == 0).unwrap_or(part.len());
        Run { written: &part[..end], blanks: part.len() - end }
    }

    pub fn is_index(&self) -> bool {
        Entry::of(&self.written[0]).kind == INDEX
    }

    /// The key of the first sector.
    pub fn header(&self) -> u32 {
        Entry::of(&self.written[0]).key
    }

    pub fn blanks(&self) -> usize {
        self.blanks
    }

    /// The number of written sectors, which is the place of the first blank where there is one.
    pub fn len(&self) -> usize {
        self.written.len()
    }

    /// The entry at a place of the run.
    pub fn entry(&self, place: usize) -> Option<Entry> {
        self.written.get(place).map(Entry::of)
    }

    pub fn entries(&self) -> impl Iterator<Item = Entry> + 'a {
        self.written.iter().map(Entry::of)
    }
}
