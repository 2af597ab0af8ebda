//! The records of one call, in the buffer that was lent for them.

use crate::Record;
use core::iter::FusedIterator;
use core::slice;

/// The records that [`crate::records`] laid down in a buffer, by rising bib.
#[derive(Clone, Debug)]
pub struct Records<'a> {
    sectors: slice::Iter<'a, [u8; 16]>,
}

impl<'a> Records<'a> {
    /// The first `count` sectors of a buffer.
    pub(crate) fn of(out: &'a [u8], count: usize) -> Records<'a> {
        Records { sectors: out.as_chunks().0[..count].iter() }
    }
}

impl Iterator for Records<'_> {
    type Item = Record;

    fn next(&mut self) -> Option<Record> {
        self.sectors.next().map(Record::of_sector)
    }

    fn size_hint(&self) -> (usize, Option<usize>) {
        self.sectors.size_hint()
    }
}

impl DoubleEndedIterator for Records<'_> {
    fn next_back(&mut self) -> Option<Record> {
        self.sectors.next_back().map(Record::of_sector)
    }
}

impl ExactSizeIterator for Records<'_> {}

impl FusedIterator for Records<'_> {}
