//! The two calls that only read: look and next.

use crate::answer::Answer;
use crate::bucket::Searched;
use crate::head::Head;
use crate::log::Log;
use crate::sector::{Entry, POST};
use crate::turn::Turn;
use crate::walk::{walk, Place};

/// The last copy of `bib` in a data bucket searched for it, if it is a post.
pub fn standing(data: &Searched, bib: u32) -> Option<Entry> {
    data.at_most().filter(|entry| entry.key == bib && entry.kind == POST)
}

/// The smallest bib above `bib` whose last copy in a data bucket is a post, with that post.
fn standing_above(data: &Searched, bib: u32) -> Option<Entry> {
    let mut last = data.above_key(bib)?;
    while last.kind != POST {
        last = data.above_key(last.key)?;
    }
    Some(last)
}

fn record(entry: Entry, reads: u32) -> Answer {
    Answer { code: 0, bib: entry.key, at: entry.stamp, status: entry.status, time: entry.value, reads }
}

/// The record of `bib` as of `at`.
pub fn look(card: &[u8], bib: u32, at: u32) -> Answer {
    let Some(head) = Head::of(card) else { return Answer::refused(1) };
    if bib == 0 {
        return Answer::refused(2);
    }
    if at < head.begin {
        return Answer::refused(13);
    }
    looked(card, &head, bib, at).unwrap_or(Answer::refused(4))
}

/// `None` is damage met on the log or path.
fn looked(card: &[u8], head: &Head, bib: u32, at: u32) -> Option<Answer> {
    let log = Log::judged(head.log(card), head.buckets, at)?;
    let reached = walk(card, head, Place::root(log.root), (bib, at), |_, _| ())?;
    Some(match standing(&reached.data, bib) {
        Some(post) => record(post, reached.reads),
        None => Answer { bib, reads: reached.reads, ..Answer::ACCEPTED },
    })
}

/// The record of the smallest standing bib above `bib` as of `at`.
pub fn next(card: &[u8], bib: u32, at: u32) -> Answer {
    let Some(head) = Head::of(card) else { return Answer::refused(1) };
    if at < head.begin {
        return Answer::refused(13);
    }
    scrolled(card, &head, bib, at).unwrap_or(Answer::refused(4))
}

/// `None` is damage met on the log or a path.
fn scrolled(card: &[u8], head: &Head, bib: u32, at: u32) -> Option<Answer> {
    let root = Place::root(Log::judged(head.log(card), head.buckets, at)?.root);
    let mut from = Turn::at_root(root, bib);
    loop {
        let (reached, turn) = from.walk(card, head, root, at)?;
        if let Some(post) = standing_above(&reached.data, bib) {
            return Some(record(post, 0));
        }
        match turn {
            Some(turn) => from = turn,
            None => return Some(Answer::ACCEPTED),
        }
    }
}
