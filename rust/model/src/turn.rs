//! The walks of a scroll: each leaves the one before it where their keys part.

use crate::head::Head;
use crate::walk::{walk, Place, Reached};

/// Where a walk to the next index key leaves the walk before it. Over the uppermost bucket that has this
/// key no key lies between the two keys sought, so that both walks go the same way down to there.
#[derive(Clone, Copy)]
pub struct Turn {
    /// The smallest index key above the one sought, on the path.
    pub key: u32,
    /// The uppermost bucket that has it.
    place: Place,
    /// The smallest such key over that bucket.
    over: Option<u32>,
}

impl Turn {
    /// A walk from the root.
    pub fn at_root(root: Place, key: u32) -> Turn {
        Turn { key, place: root, over: None }
    }

    /// Walks on from here as of `t`, and gives the turn after it. `None` is damage met on the path.
    pub fn walk<'a>(
        self,
        card: &'a [u8],
        head: &Head,
        root: Place,
        t: u32,
    ) -> Option<(Reached<'a>, Option<Turn>)> {
        let mut turn = self.over.map(|key| Turn::at_root(root, key));
        let reached = walk(card, head, self.place, (self.key, t), |place, searched| {
            let above = if searched.run.is_index() { searched.above().map(|entry| entry.key) } else { None };
            let over = turn.map(|turn| turn.key);
            if let Some(key) = above.filter(|&key| over.is_none_or(|over| key < over)) {
                turn = Some(Turn { key, place, over });
            }
        })?;
        Some((reached, turn))
    }
}
