//! The card's head: its geometry, and where the log and the buckets lie.

use crate::blank::all_blank;
use crate::sector::{number, sectors, Bytes, SECTOR};

pub const MOST_SECTORS: usize = 32;
pub const MOST_BUCKETS: usize = 4096;

#[derive(Clone, Copy)]
pub struct Head {
    /// m, the sectors of a bucket.
    pub sectors: u32,
    pub td: u32,
    pub ti: u32,
    /// N, the buckets of the card.
    pub buckets: u32,
    /// The stamp from which the card answers.
    pub begin: u32,
}

impl Head {
    /// The geometry that a call asks for, its zeros as what they mean, on a card that answers from 0.
    pub fn meant(buckets: u32, sectors: u32, td: u32, ti: u32) -> Head {
        // a geometry past the limits is refused later; the bound keeps the products small
        let m = sectors.min(33);
        Head {
            sectors,
            td: if td == 0 { m / 2 } else { td },
            ti: if ti == 0 { m - m / 8 } else { ti },
            buckets,
            begin: 0,
        }
    }

    /// Whether a card of this geometry can be begun on these bytes: 8, and 9 where they are not blank.
    pub fn suits(&self, card: &[u8]) -> Result<(), u32> {
        if !self.within_limits() || card.len() != self.length() {
            return Err(8);
        }
        if !all_blank(sectors(card)) {
            return Err(9);
        }
        Ok(())
    }

    pub fn within_limits(&self) -> bool {
        let m = self.sectors;
        (4..=MOST_SECTORS as u32).contains(&m)
            && (2..=MOST_BUCKETS as u32).contains(&self.buckets)
            && (2..=m).contains(&self.td)
            && (4..=m).contains(&self.ti)
    }

    /// The card's length in bytes; the head has to be within the limits.
    pub fn length(&self) -> usize {
        SECTOR * (1 + self.buckets as usize * (self.sectors as usize + 1))
    }

    /// The head of a card whose head and length keep the layout.
    pub fn of(card: &[u8]) -> Option<Head> {
        let first = card.first_chunk::<SECTOR>()?;
        let head = Head {
            sectors: first[1].into(),
            td: first[2].into(),
            ti: first[3].into(),
            buckets: number(first, 4),
            begin: number(first, 8),
        };
        let rest_zero = number(first, 12) == 0;
        let kept = first[0] == 6 && rest_zero && head.within_limits() && card.len() == head.length();
        kept.then_some(head)
    }

    pub fn write(&self, card: &mut [u8]) {
        card[0] = 6;
        card[1] = self.sectors as u8;
        card[2] = self.td as u8;
        card[3] = self.ti as u8;
        card[4..8].copy_from_slice(&self.buckets.to_le_bytes());
        card[8..12].copy_from_slice(&self.begin.to_le_bytes());
    }

    pub fn bucket_bytes(&self) -> usize {
        SECTOR * self.sectors as usize
    }

    /// Where sector `sector` of bucket `bucket` begins.
    pub fn place(&self, bucket: u32, sector: usize) -> usize {
        self.area() + (bucket as usize - 1) * self.bucket_bytes() + SECTOR * sector
    }

    /// Where bucket 1 begins.
    pub fn area(&self) -> usize {
        SECTOR * (1 + self.buckets as usize)
    }

    pub fn log<'a>(&self, card: &'a [u8]) -> &'a [Bytes] {
        sectors(&card[SECTOR..self.area()])
    }

    pub fn bucket<'a>(&self, card: &'a [u8], bucket: u32) -> &'a [Bytes] {
        let from = self.place(bucket, 0);
        sectors(&card[from..from + self.bucket_bytes()])
    }
}
