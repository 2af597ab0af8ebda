//! The plain journal: accepted entries in arrival order on a slice of sectors, read through for each question.

use crate::answer::Answer;
use crate::beside::Beside;
use crate::blank::all_blank;
use crate::sector::{sectors, sectors_mut, Bytes, Entry, POST, SECTOR, STRIKE};

/// A slice that is a journal: posts and strikes with rising stamps, then blanks.
struct Journal<'a> {
    written: &'a [Bytes],
    blanks: usize,
    /// The last stamp, or 0.
    last: u32,
}

impl<'a> Journal<'a> {
    /// `None` unless the slice is a multiple of 16 long and a run of posts and strikes with rising stamps
    /// from 1, then blanks.
    fn of(slice: &'a [u8]) -> Option<Journal<'a>> {
        if !slice.len().is_multiple_of(SECTOR) {
            return None;
        }
        let all = sectors(slice);
        let (mut end, mut last) = (all.len(), 0);
        for (place, sector) in all.iter().enumerate() {
            let entry = Entry::of(sector);
            if entry.kind == 0 {
                end = place;
                break;
            }
            // a strike of bib 0 is sound by itself, but only with stamp 0
            if !entry.is_sound_data() || entry.stamp <= last {
                return None;
            }
            last = entry.stamp;
        }
        let (written, rest) = all.split_at(end);
        all_blank(rest).then_some(Journal { written, blanks: rest.len(), last })
    }

    /// The entries stamped `at` or earlier: stamps rise, so that they are the first ones.
    fn as_of(&self, at: u32) -> &'a [Bytes] {
        &self.written[..self.written.partition_point(|sector| Entry::of(sector).stamp <= at)]
    }
}

/// The last entry of `bib`, if it is a post.
fn standing(entries: &[Bytes], bib: u32) -> Option<Entry> {
    let last = entries.iter().rev().map(Entry::of).find(|entry| entry.key == bib);
    last.filter(|entry| entry.kind == POST)
}

/// The post of the smallest bib above `bib` whose last entry is one.
fn standing_above(entries: &[Bytes], mut bib: u32) -> Option<Entry> {
    loop {
        let mut beside = Beside::new(bib, u32::MAX);
        entries.iter().enumerate().for_each(|(place, sector)| beside.see(place, Entry::of(sector)));
        let last = Entry::of(&entries[beside.above()?]);
        if last.kind == POST {
            return Some(last);
        }
        bib = last.key;
    }
}

fn record(entry: Entry) -> Answer {
    Answer { bib: entry.key, at: entry.stamp, status: entry.status, time: entry.value, ..Answer::ACCEPTED }
}

/// A new result for `bib`, or a correction.
pub fn post(journal: &mut [u8], bib: u32, at: u32, status: u32, time: u32) -> Answer {
    write(journal, Entry { kind: POST, status, key: bib, stamp: at, value: time })
}

/// Erases what stands for `bib`.
pub fn strike(journal: &mut [u8], bib: u32, at: u32) -> Answer {
    write(journal, Entry::without_status(STRIKE, bib, at, 0))
}

fn write(journal: &mut [u8], entry: Entry) -> Answer {
    match place_for(journal, entry) {
        Err(number) => Answer::refused(number),
        Ok(place) => {
            entry.write(&mut sectors_mut(journal)[place]);
            Answer::ACCEPTED
        }
    }
}

/// The first blank sector, or the refusal.
fn place_for(journal: &[u8], entry: Entry) -> Result<usize, u32> {
    let journal = Journal::of(journal).ok_or(1u32)?;
    if entry.key == 0 {
        return Err(2);
    }
    if !entry.has_sound_status() {
        return Err(14);
    }
    if entry.stamp <= journal.last {
        return Err(3);
    }
    if entry.kind == STRIKE && standing(journal.written, entry.key).is_none() {
        return Err(5);
    }
    if journal.blanks == 0 {
        return Err(6);
    }
    Ok(journal.written.len())
}

/// The record of `bib` as of `at`.
pub fn look(journal: &[u8], bib: u32, at: u32) -> Answer {
    let Some(journal) = Journal::of(journal) else { return Answer::refused(1) };
    if bib == 0 {
        return Answer::refused(2);
    }
    standing(journal.as_of(at), bib).map_or(Answer { bib, ..Answer::ACCEPTED }, record)
}

/// The record of the smallest standing bib above `bib` as of `at`.
pub fn next(journal: &[u8], bib: u32, at: u32) -> Answer {
    let Some(journal) = Journal::of(journal) else { return Answer::refused(1) };
    standing_above(journal.as_of(at), bib).map_or(Answer::ACCEPTED, record)
}
