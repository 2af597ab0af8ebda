//! All records that stand as of a stamp: what next gives one after the other from bib 0.

use crate::head::{Head, MOST_SECTORS};
use crate::log::Log;
use crate::row::Row;
use crate::run::Run;
use crate::sector::{Entry, POST};
use crate::turn::Turn;
use crate::walk::Place;

/// Shows the records by rising bib. `None` is damage met by one of the steps of next.
///
/// While the bibs stay below the next index key on the path, the walk of the next step would be the same, and
/// so the bucket in hand is read on.
pub fn each_standing(card: &[u8], head: &Head, t: u32, mut show: impl FnMut(Entry)) -> Option<()> {
    let root = Place::root(Log::judged(head.log(card), head.buckets, t)?.root);
    let (mut bib, mut from) = (0, Turn::at_root(root, 0));
    loop {
        let (reached, turn) = from.walk(card, head, root, t)?;
        let mut on = turn;
        for &post in posts_above(&reached.data.run, bib, t).entries() {
            show(post);
            bib = post.key;
            if turn.is_some_and(|turn| turn.key <= bib) {
                // a foreign bucket may hold bibs that the index leads elsewhere for
                on = Some(Turn::at_root(root, bib));
                break;
            }
        }
        match on {
            Some(turn) => from = turn,
            None => return Some(()),
        }
    }
}

/// The posts of a data bucket that are their bib's last copy as of `t`, in order of the bibs above `bib`.
fn posts_above(data: &Run, bib: u32, t: u32) -> Row<MOST_SECTORS> {
    let mut row = Row::new();
    for entry in data.entries().filter(|entry| entry.stamp <= t && entry.key > bib) {
        row.put_in_order(entry);
    }
    row.retain(|entry| entry.kind == POST);
    row
}
