//! What an accepted write leaves on the card: one sector, or new buckets up to where there is room.

use crate::head::{Head, MOST_SECTORS};
use crate::row::Row;
use crate::run::Run;
use crate::sector::{sectors_mut, Entry, INDEX, ROOT, SECTOR, STRIKE};

/// What goes up to a bucket: the call's entry, or the pairs of one or two new buckets.
type Sent = Row<2>;

/// The entries in hand: those of a full bucket and what was sent to it.
type Hand = Row<{ MOST_SECTORS + 2 }>;

/// What is taken already: buckets up to the highest used, the log's written sectors, and the root they give.
#[derive(Clone, Copy)]
pub struct Taken {
    pub buckets: u32,
    pub log: usize,
    pub root: u32,
}

/// Writes `entry` over the buckets of its path, root first, and gives what is taken then. `None` if the card
/// has too few fresh buckets or no blank log sector for a new root; then nothing is written.
pub fn write(card: &mut [u8], head: &Head, taken: Taken, path: &[u32], entry: Entry) -> Option<Taken> {
    // two buckets for each level and one above them are the most that a write takes
    let most = taken.buckets as usize + 2 * path.len() + 1;
    let sure = most <= head.buckets as usize && taken.log < head.buckets as usize;
    let mut climb = |writing| Climb { card, head, taken, stamp: entry.stamp, writing }.up(path, entry);
    if !sure {
        // once without writing, since a refusal leaves the card as it was
        climb(false)?;
    }
    climb(true)
}

/// The way from the data bucket to the level that has room.
struct Climb<'a> {
    card: &'a mut [u8],
    head: &'a Head,
    taken: Taken,
    stamp: u32,
    writing: bool,
}

impl Climb<'_> {
    fn up(mut self, path: &[u32], entry: Entry) -> Option<Taken> {
        let mut sent = Sent::new();
        sent.push(entry);
        for &bucket in path.iter().rev() {
            let run = Run::known(self.head.bucket(self.card, bucket));
            let from = run.len();
            if run.blanks() >= sent.entries().len() {
                self.lay(self.head.place(bucket, from), sent.entries());
                return Some(self.taken);
            }
            let limit = if run.is_index() { self.head.ti } else { self.head.td };
            let kept = kept(&run, sent.entries());
            sent = self.renewed(kept.entries(), limit)?;
        }
        self.new_root(sent.entries())?;
        Some(self.taken)
    }

    /// Entries one after the other from a place of the card on.
    fn lay(&mut self, from: usize, entries: &[Entry]) {
        if self.writing {
            for (entry, sector) in entries.iter().zip(sectors_mut(&mut self.card[from..])) {
                entry.write(sector);
            }
        }
    }

    /// Writes `entries` to the next fresh bucket and gives the pair that leads to it.
    fn fresh(&mut self, entries: &[Entry]) -> Option<Entry> {
        if self.taken.buckets == self.head.buckets {
            return None;
        }
        self.taken.buckets += 1;
        self.lay(self.head.place(self.taken.buckets, 0), entries);
        Some(Entry::without_status(INDEX, entries[0].key, self.stamp, self.taken.buckets))
    }

    /// One or two fresh buckets for what was kept; their pairs, low first.
    fn renewed(&mut self, kept: &[Entry], limit: u32) -> Option<Sent> {
        let mut pairs = Sent::new();
        if kept.len() < limit as usize {
            pairs.push(self.fresh(kept)?);
        } else {
            let (low, high) = kept.split_at(kept.len().div_ceil(2));
            pairs.push(self.fresh(low)?);
            pairs.push(self.fresh(high)?);
        }
        Some(pairs)
    }

    /// The root was rewritten: one bucket is the new root, two get a further bucket above them.
    fn new_root(&mut self, pairs: &[Entry]) -> Option<()> {
        let top = match pairs {
            [one] => *one,
            both => self.fresh(both)?,
        };
        if self.taken.log == self.head.buckets as usize {
            return None;
        }
        self.lay(SECTOR * (1 + self.taken.log), &[Entry { kind: ROOT, key: 0, ..top }]);
        self.taken.log += 1;
        self.taken.root = top.value;
        Some(())
    }
}

/// The last copy of each key in key order, strikes dropped but for one on the header key and the
/// entry just added.
fn kept(run: &Run, sent: &[Entry]) -> Hand {
    let mut hand = Hand::new();
    for entry in run.entries().chain(sent.iter().copied()) {
        hand.put_in_order(entry);
    }
    let (header, added) = (run.header(), sent[0].key);
    hand.retain(|entry| entry.kind != STRIKE || entry.key == header || entry.key == added);
    hand
}
