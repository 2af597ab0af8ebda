//! The season card: what stands as of a stamp goes on to a blank second card.

use crate::head::Head;
use crate::sector::{number, sectors_mut, Entry, INDEX, ROOT, SECTOR};
use crate::standing::each_standing;
use crate::writing::DUMMY;

/// Copies what stands on `card` as of `at` to a blank target of the geometry given, zeros as in format.
pub fn season(card: &[u8], at: u32, target: &mut [u8], buckets: u32, sectors: u32, td: u32, ti: u32) -> u32 {
    let meant = Head { begin: at, ..Head::meant(buckets, sectors, td, ti) };
    match copied(card, at, target, &meant) {
        Ok(()) => 0,
        Err(number) => number,
    }
}

/// Builds the target, or gives the refusal.
fn copied(card: &[u8], at: u32, target: &mut [u8], meant: &Head) -> Result<(), u32> {
    let head = Head::of(card).ok_or(1u32)?;
    if at < head.begin {
        return Err(13);
    }
    meant.suits(target)?;
    // the records are gone through once without writing, since a refusal leaves the target as it was
    let mut entries = 1;
    each_standing(card, &head, at, |_| entries += 1).ok_or(4u32)?;
    if needed(entries, quota(meant)) > meant.buckets as usize {
        return Err(6);
    }
    meant.write(target);
    let mut pile = Pile { target, head: meant, quota: quota(meant), bucket: 1, filled: 0 };
    pile.put(DUMMY);
    each_standing(card, &head, at, |record| pile.put(record)).expect("no damage was met before");
    pile.build_up(at);
    Ok(())
}

/// How many sectors of a bucket are filled.
fn quota(head: &Head) -> usize {
    3 * head.sectors as usize / 4
}

/// The buckets that so many entries and the index levels over them take.
fn needed(entries: usize, quota: usize) -> usize {
    let mut level = entries.div_ceil(quota);
    let mut all = level;
    loop {
        level = level.div_ceil(quota);
        all += level;
        if level == 1 {
            return all;
        }
    }
}

/// The buckets of the target, filled one after the other.
struct Pile<'a> {
    target: &'a mut [u8],
    head: &'a Head,
    quota: usize,
    /// The bucket being filled, and how far it is.
    bucket: u32,
    filled: usize,
}

impl Pile<'_> {
    fn put(&mut self, entry: Entry) {
        if self.filled == self.quota {
            self.open();
        }
        let place = self.head.place(self.bucket, self.filled);
        self.lay(place, entry);
        self.filled += 1;
    }

    fn open(&mut self) {
        self.bucket += 1;
        self.filled = 0;
    }

    fn lay(&mut self, from: usize, entry: Entry) {
        entry.write(&mut sectors_mut(&mut self.target[from..from + SECTOR])[0]);
    }

    /// Index levels over the data buckets until one bucket is left, and the root entry for it.
    fn build_up(mut self, at: u32) {
        let mut below = 1..=self.bucket;
        loop {
            let first = self.bucket + 1;
            self.open();
            for bucket in below {
                let key = number(&self.head.bucket(self.target, bucket)[0], 4);
                self.put(Entry::without_status(INDEX, key, at, bucket));
            }
            if first == self.bucket {
                break;
            }
            below = first..=self.bucket;
        }
        let root = Entry::without_status(ROOT, 0, at, self.bucket);
        self.lay(SECTOR, root);
    }
}
