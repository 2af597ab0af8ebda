//! The walk as of t: from the root through index buckets to a data bucket.

use crate::bucket::Searched;
use crate::head::Head;

/// A bucket that a walk has come to and not yet read.
#[derive(Clone, Copy)]
pub struct Place {
    pub bucket: u32,
    /// The key followed to it, 0 for the root.
    key: u32,
    /// The buckets read before it.
    reads: u32,
}

impl Place {
    pub fn root(bucket: u32) -> Place {
        Place { bucket, key: 0, reads: 0 }
    }
}

/// Where a walk ends.
pub struct Reached<'a> {
    pub data: Searched<'a>,
    pub reads: u32,
}

/// Walks to key `x` as of `t` from a place on its path. `visit` sees each bucket with its place, the
/// uppermost first. `None` is damage met on the path.
pub fn walk<'a>(
    card: &'a [u8],
    head: &Head,
    mut place: Place,
    (x, t): (u32, u32),
    mut visit: impl FnMut(Place, &Searched<'a>),
) -> Option<Reached<'a>> {
    while place.reads < head.buckets {
        let searched = Searched::judged(head.bucket(card, place.bucket), head.buckets, x, t)?;
        if searched.run.header() != place.key {
            return None;
        }
        visit(place, &searched);
        let reads = place.reads + 1;
        if !searched.run.is_index() {
            return Some(Reached { data: searched, reads });
        }
        let followed = searched.at_most()?;
        place = Place { bucket: followed.value, key: followed.key, reads };
    }
    None
}
