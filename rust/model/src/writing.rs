//! The three calls that write: format, post and strike.

use crate::answer::Answer;
use crate::head::{Head, MOST_BUCKETS};
use crate::log::Log;
use crate::reading::standing;
use crate::rewrite::{self, Taken};
use crate::sector::{sectors_mut, Entry, INDEX, POST, ROOT, SECTOR, STRIKE};
use crate::survey::Survey;
use crate::walk::{walk, Place};

/// Writes walk with this t: no entry is later.
pub const NOW: u32 = u32::MAX;

/// Each index bucket of ours leads at least two ways, but for a first root, so that no card of ours has a
/// path as long. On a foreign one that has, the walk is made again with room for any path, which takes
/// longer to lay out than the walk itself mostly does.
const USUAL_LEVELS: usize = 32;

/// What is always the lowest header.
pub const DUMMY: Entry = Entry { kind: STRIKE, status: 0, key: 0, stamp: 0, value: 0 };

/// Makes a blank card an empty one.
pub fn format(card: &mut [u8], buckets: u32, sectors: u32, td: u32, ti: u32) -> Answer {
    let meant = Head::meant(buckets, sectors, td, ti);
    if let Err(number) = meant.suits(card) {
        return Answer::refused(number);
    }
    meant.write(card);
    let mut put = |from: usize, entry: Entry| entry.write(&mut sectors_mut(&mut card[from..])[0]);
    put(SECTOR, Entry::without_status(ROOT, 0, 0, 1));
    put(meant.place(1, 0), Entry::without_status(INDEX, 0, 0, 2));
    put(meant.place(2, 0), DUMMY);
    Answer::ACCEPTED
}

/// A new result for `bib`, or a correction.
pub fn post(card: &mut [u8], bib: u32, at: u32, status: u32, time: u32) -> Answer {
    write(card, Entry { kind: POST, status, key: bib, stamp: at, value: time })
}

/// Erases what stands for `bib`.
pub fn strike(card: &mut [u8], bib: u32, at: u32) -> Answer {
    write(card, Entry::without_status(STRIKE, bib, at, 0))
}

fn write(card: &mut [u8], entry: Entry) -> Answer {
    match entered(card, entry) {
        Err(number) => Answer::refused(number),
        Ok(()) => Answer::ACCEPTED,
    }
}

/// Writes the entry, or gives the refusal.
fn entered(card: &mut [u8], entry: Entry) -> Result<(), u32> {
    let head = Head::of(card).ok_or(1u32)?;
    if entry.key == 0 {
        return Err(2);
    }
    if !entry.has_sound_status() {
        return Err(14);
    }
    let survey = Survey::of(card, &head);
    if !survey.is_below(entry.stamp) {
        return Err(3);
    }
    let buckets = survey.highest_used();
    let log = Log::judged(head.log(card), head.buckets, NOW).ok_or(4u32)?;
    enter(card, &head, Taken { buckets, log: log.len, root: log.root }, entry).map(drop)
}

/// Writes an entry stamped later than all others on a card whose log is sound, or gives the refusal. What is
/// taken afterwards is what the next such entry starts from.
pub fn enter(card: &mut [u8], head: &Head, taken: Taken, entry: Entry) -> Result<Taken, u32> {
    if let Some(taken) = along::<USUAL_LEVELS>(card, head, taken, entry)? {
        return Ok(taken);
    }
    let taken = along::<MOST_BUCKETS>(card, head, taken, entry)?;
    Ok(taken.expect("no path has more buckets than a card"))
}

/// Writes the entry along its path, or gives the refusal. `None` if the path has more than `MOST` buckets;
/// then nothing is written. Never inlined: the caller of both paths would have the long one in its frame.
#[inline(never)]
fn along<const MOST: usize>(
    card: &mut [u8],
    head: &Head,
    taken: Taken,
    entry: Entry,
) -> Result<Option<Taken>, u32> {
    let mut path = [0; MOST];
    let mut levels = 0;
    let reached = walk(card, head, Place::root(taken.root), (entry.key, NOW), |place, _| {
        if let Some(level) = path.get_mut(levels) {
            *level = place.bucket;
        }
        levels += 1;
    });
    let reached = reached.ok_or(4u32)?;
    if entry.kind == STRIKE && standing(&reached.data, entry.key).is_none() {
        return Err(5);
    }
    match path.get(..levels) {
        Some(path) => rewrite::write(card, head, taken, path, entry).map(Some).ok_or(6),
        None => Ok(None),
    }
}
