//! What the whole bucket area says: the largest stamp, and the highest bucket used.

use crate::blank::up_to_blank_end;
use crate::head::Head;
use crate::sector::{number, sectors, Bytes};

/// The bucket area without its blank end.
pub struct Survey<'a> {
    written: &'a [Bytes],
    bucket_sectors: usize,
}

impl<'a> Survey<'a> {
    pub fn of(card: &'a [u8], head: &Head) -> Survey<'a> {
        let written = up_to_blank_end(sectors(&card[head.area()..]));
        Survey { written, bucket_sectors: head.sectors as usize }
    }

    /// The largest stamp field of any bucket sector with nonzero kind, or 0. Mostly a sector with the largest
    /// field of all has a kind, and then no other kind matters.
    pub fn largest_stamp(&self) -> u32 {
        let largest = self.written.iter().map(stamp_field).max().unwrap_or(0);
        if self.any_sector(|sector| (stamp_field(sector) == largest) & (sector[0] != 0)) {
            return largest;
        }
        let stamps = self.written.iter().filter(|sector| sector[0] != 0).map(stamp_field);
        stamps.max().unwrap_or(0)
    }

    /// Whether a stamp is above that largest one. Mostly no stamp field at all reaches it, and then
    /// the kinds, which cost as much again to read, do not matter.
    pub fn is_below(&self, stamp: u32) -> bool {
        stamp > 0 && (self.no_field_reaches(stamp) || self.largest_stamp() < stamp)
    }

    /// Whether every stamp field, of a sector of whatever kind, is below `stamp`.
    fn no_field_reaches(&self, stamp: u32) -> bool {
        !self.any_sector(|sector| stamp_field(sector) >= stamp)
    }

    /// Whether a sector is as asked. Sixteen sectors at a time without a way out, which the compiler does
    /// several at a time; from behind, where the newest mostly are.
    fn any_sector(&self, asked: impl Fn(&Bytes) -> bool) -> bool {
        let (wide, rest) = self.written.as_chunks::<16>();
        rest.iter().any(&asked)
            || wide.iter().rev().any(|sectors| sectors.iter().fold(false, |any, sector| any | asked(sector)))
    }

    /// The highest bucket with a nonzero byte, or 0.
    pub fn highest_used(&self) -> u32 {
        self.written.len().div_ceil(self.bucket_sectors) as u32
    }
}

fn stamp_field(sector: &Bytes) -> u32 {
    number(sector, 8)
}
