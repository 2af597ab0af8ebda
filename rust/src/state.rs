//! What a card that is opened again says of itself.

use crate::Shape;

/// A card's shape, its largest stamp and how many of its buckets are used.
#[derive(Clone, Copy, Debug, PartialEq, Eq, Hash)]
pub struct State {
    /// As the head has it: the thresholds are never 0.
    pub shape: Shape,
    /// The beginning: the stamp from which the card answers, 0 unless it is a [`crate::season`] card.
    /// Questions as of an earlier one are refused as [`crate::Refusal::TooEarly`].
    pub begin: u32,
    /// The largest stamp, or 0. A post or strike needs one above it.
    pub last: u32,
    /// The highest bucket used, or 0.
    pub used: u32,
}

impl State {
    /// The buckets that no entry has been written to yet. A post or strike that needs more is refused as
    /// [`crate::Refusal::Full`].
    ///
    /// ```
    /// # use card::{Refusal, Shape};
    /// # let mut bytes = vec![0; Shape::new(16, 4).bytes().unwrap()];
    /// card::format(&mut bytes, Shape::new(16, 4))?;
    /// assert_eq!(card::state(&bytes)?.fresh_buckets(), 14);
    /// # Ok::<(), Refusal>(())
    /// ```
    pub const fn fresh_buckets(&self) -> u32 {
        self.shape.buckets - self.used
    }

    /// The smallest stamp that a post or strike can have, or `None` on a card that is closed: one with an
    /// entry stamped 4294967295.
    ///
    /// ```
    /// # use card::{Refusal, Shape, Status};
    /// # let mut bytes = vec![0; Shape::new(16, 4).bytes().unwrap()];
    /// # card::format(&mut bytes, Shape::new(16, 4))?;
    /// card::post(&mut bytes, 7, 100, Status::Timed, 59_990)?;
    /// assert_eq!(card::state(&bytes)?.next_stamp(), Some(101));
    /// card::post(&mut bytes, 7, u32::MAX, Status::Timed, 59_980)?;
    /// assert_eq!(card::state(&bytes)?.next_stamp(), None);
    /// # Ok::<(), Refusal>(())
    /// ```
    pub const fn next_stamp(&self) -> Option<u32> {
        self.last.checked_add(1)
    }
}
