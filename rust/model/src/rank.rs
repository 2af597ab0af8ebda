//! A key and its place in the bucket as one number: the largest of them is the last copy of the largest
//! key, found without asking which of two keys is the larger, which a processor guesses wrong too often.

/// The key in the upper half, one more than the place in the lower.
#[derive(Clone, Copy, PartialEq, Eq, PartialOrd, Ord)]
pub struct Rank(u64);

impl Rank {
    /// Below the rank of every entry.
    pub const NONE: Rank = Rank(0);

    pub fn of(key: u32, place: usize) -> Rank {
        Rank(u64::from(key) << 32 | (place as u64 + 1))
    }

    /// The rank among keys in falling order.
    pub fn falling(key: u32, place: usize) -> Rank {
        Rank::of(!key, place)
    }

    pub fn place(self) -> Option<usize> {
        (self.0 as u32 as usize).checked_sub(1)
    }
}
