//! Cards that others might have written: sound trees that our rules would not leave, with stamps in
//! no order, old copies, roots of any height and buckets used in any order.

use super::bytes::{first_sector, post_of, put, put_head, set, Entry};
use super::growth::result;
use super::length;
use super::random::Random;

pub struct Foreign<'r> {
    random: &'r mut Random,
    card: Vec<u8>,
    buckets: u32,
    sectors: u32,
    /// Bucket numbers not yet taken.
    free: Vec<u32>,
    /// Buckets made, with their headers.
    made: Vec<(u32, u32)>,
    /// How many buckets of a hundred are filled to the last sector.
    full: u32,
    /// How many stamps of a hundred are the largest there is.
    latest: u32,
}

/// A foreign card without damage, unless it has too few buckets for the tree begun on it.
pub fn card(random: &mut Random) -> Vec<u8> {
    let sectors = if random.chance(70) { random.within(4, 7) } else { random.within(4, 32) };
    let buckets = if random.chance(80) { random.within(2, 40) } else { random.within(41, 200) };
    let mut card = vec![0; length(buckets, sectors)];
    put_head(&mut card, buckets, sectors, random.within(2, sectors), random.within(4, sectors));
    set(&mut card, 8, beginning(random));
    let free = numbers(random, buckets);
    let full = random.of(&[0, 40, 80, 100]);
    let latest = random.of(&[0, 0, 0, 2]);
    let mut foreign = Foreign { random, card, buckets, sectors, free, made: Vec::new(), full, latest };
    let levels = foreign.random.within(0, 5);
    let root = foreign.grow(0, u32::MAX, levels).expect("a card has buckets");
    if foreign.random.chance(30) {
        foreign.grow(0, u32::MAX, levels / 2);
    }
    foreign.log(root);
    foreign.card
}

/// Mostly none; else among the stamps the card has, or any.
fn beginning(random: &mut Random) -> u32 {
    match random.within(0, 9) {
        0 => random.any(),
        1 | 2 => random.within(1, 60),
        _ => 0,
    }
}

/// The bucket numbers to use, the last of them first.
fn numbers(random: &mut Random, buckets: u32) -> Vec<u32> {
    let used = if random.chance(75) { buckets.div_ceil(2) } else { buckets };
    let mut free: Vec<u32> = (1..=used).rev().collect();
    if random.chance(50) {
        for i in 1..free.len() {
            free.swap(i, random.index(i + 1));
        }
    }
    free
}

impl Foreign<'_> {
    fn stamp(&mut self) -> u32 {
        if self.random.chance(self.latest) {
            u32::MAX
        } else {
            self.random.within(0, 60)
        }
    }

    fn key(&mut self, low: u32, high: u32) -> u32 {
        let near = low.saturating_add(25).min(high);
        if self.random.chance(85) {
            self.random.within(low, near)
        } else {
            self.random.within(low, high)
        }
    }

    /// A bucket with header `low` and keys up to `high`, over `levels` index levels.
    fn grow(&mut self, low: u32, high: u32, levels: u32) -> Option<u32> {
        let bucket = self.free.pop()?;
        self.made.push((bucket, low));
        let entries = if levels == 0 { self.data(low, high) } else { self.index(low, high, levels) };
        let first = first_sector(self.buckets, self.sectors, bucket);
        for (i, entry) in entries.into_iter().take(self.sectors as usize).enumerate() {
            put(&mut self.card, first + i, entry);
        }
        Some(bucket)
    }

    /// How many sectors of a bucket to write.
    fn written(&mut self) -> usize {
        let many =
            if self.random.chance(self.full) { self.sectors } else { self.random.within(1, self.sectors) };
        many as usize
    }

    fn data(&mut self, low: u32, high: u32) -> Vec<Entry> {
        let written = self.written();
        let first = if low == 0 { (2, 0, 0, 0) } else { self.said(low) };
        let mut entries = vec![first];
        while entries.len() < written {
            let key = self.key(low, high);
            let said = if key == 0 { (2, 0, 0, 0) } else { self.said(key) };
            entries.push(said);
        }
        entries
    }

    fn said(&mut self, key: u32) -> Entry {
        let stamp = self.stamp();
        if self.random.chance(30) {
            (2, key, stamp, 0)
        } else {
            let (status, time) = result(self.random);
            (post_of(status), key, stamp.max(1), time)
        }
    }

    fn index(&mut self, low: u32, high: u32, levels: u32) -> Vec<Entry> {
        let written = self.written();
        let mut keys = vec![low];
        for _ in 0..self.random.within(0, self.sectors.min(5)) {
            let key = self.key(low, high);
            keys.push(key);
        }
        keys.sort_unstable();
        keys.dedup();
        let mut entries = Vec::new();
        for (i, &key) in keys.iter().enumerate() {
            let top = keys.get(i + 1).map_or(high, |next| next - 1);
            let below = if self.random.chance(10) { self.random.within(0, levels - 1) } else { levels - 1 };
            let child = self.grow(key, top, below).unwrap_or_else(|| self.other(key));
            entries.push((3, key, self.stamp(), child));
        }
        while entries.len() < written {
            self.copy(&mut entries);
        }
        entries
    }

    /// Adds an older or later copy of an entry, somewhere past the first.
    fn copy(&mut self, entries: &mut Vec<Entry>) {
        let (_, key, _, child) = entries[self.random.index(entries.len())];
        let child = if self.random.chance(30) { self.other(key) } else { child };
        let copy = (3, key, self.stamp(), child);
        let place = if self.random.chance(60) { entries.len() } else { 1 + self.random.index(entries.len()) };
        entries.insert(place, copy);
    }

    /// A bucket already made with this header, which may lie above: a cycle. Else any bucket.
    fn other(&mut self, key: u32) -> u32 {
        let fitting: Vec<u32> = self.made.iter().filter(|made| made.1 == key).map(|made| made.0).collect();
        if fitting.is_empty() {
            self.random.within(1, self.buckets)
        } else {
            self.random.of(&fitting)
        }
    }

    /// Root entries, the last of them leading to `root`; now and then as many as the log holds.
    fn log(&mut self, root: u32) {
        let many =
            if self.random.chance(12) { self.buckets } else { self.random.within(1, self.buckets.min(4)) };
        for place in 1..many {
            let old = self.other(0);
            let stamp = self.stamp();
            put(&mut self.card, place as usize, (4, 0, stamp, old));
        }
        let stamp = if self.random.chance(80) { 0 } else { self.stamp() };
        put(&mut self.card, many as usize, (4, 0, stamp, root));
    }
}
