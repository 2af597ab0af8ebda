//! Everything ever said of one bib, in the buffer that was lent for it.

use crate::Record;
use core::iter::FusedIterator;
use core::slice;

/// What was once said of a bib.
#[derive(Clone, Copy, Debug, PartialEq, Eq, Hash)]
pub enum Entry {
    /// A result was posted: a first one or a correction.
    Post(Record),
    /// What stood was struck.
    Strike {
        /// The athlete's number.
        bib: u32,
        /// The stamp of the strike.
        at: u32,
    },
}

impl Entry {
    /// The entry's stamp.
    pub const fn at(self) -> u32 {
        match self {
            Entry::Post(record) => record.at,
            Entry::Strike { at, .. } => at,
        }
    }

    /// The entry in a sector of kind 1 or 2.
    fn of_sector(sector: &[u8; 16]) -> Entry {
        match sector {
            [2, _, _, _, b0, b1, b2, b3, a0, a1, a2, a3, ..] => Entry::Strike {
                bib: u32::from_le_bytes([*b0, *b1, *b2, *b3]),
                at: u32::from_le_bytes([*a0, *a1, *a2, *a3]),
            },
            _ => Entry::Post(Record::of_sector(sector)),
        }
    }
}

/// The entries that [`crate::history`] laid down in a buffer, by rising stamp.
#[derive(Clone, Debug)]
pub struct History<'a> {
    sectors: slice::Iter<'a, [u8; 16]>,
}

impl<'a> History<'a> {
    /// The first `count` sectors of a buffer.
    pub(crate) fn of(out: &'a [u8], count: usize) -> History<'a> {
        History { sectors: out.as_chunks().0[..count].iter() }
    }
}

impl Iterator for History<'_> {
    type Item = Entry;

    fn next(&mut self) -> Option<Entry> {
        self.sectors.next().map(Entry::of_sector)
    }

    fn size_hint(&self) -> (usize, Option<usize>) {
        self.sectors.size_hint()
    }
}

impl DoubleEndedIterator for History<'_> {
    fn next_back(&mut self) -> Option<Entry> {
        self.sectors.next_back().map(Entry::of_sector)
    }
}

impl ExactSizeIterator for History<'_> {}

impl FusedIterator for History<'_> {}
