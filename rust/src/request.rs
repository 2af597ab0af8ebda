//! What a batch is made of.

use crate::Status;

/// A post or a strike to be made with others in one call.
///
/// ```
/// use card::{Request, Status};
/// let request = Request::Post { bib: 7, at: 100, status: Status::Timed, time: 59_990 };
/// assert_eq!(request.sector(), [1, 0, 0, 0, 7, 0, 0, 0, 100, 0, 0, 0, 0x56, 0xea, 0, 0]);
/// ```
#[derive(Clone, Copy, Debug, PartialEq, Eq, Hash)]
pub enum Request {
    /// As [`crate::post`].
    Post {
        /// The athlete's number.
        bib: u32,
        /// The stamp.
        at: u32,
        /// The status.
        status: Status,
        /// The time in thousandths of a second, 0 unless the status is [`Status::Timed`].
        time: u32,
    },
    /// As [`crate::strike`].
    Strike {
        /// The athlete's number.
        bib: u32,
        /// The stamp.
        at: u32,
    },
}

impl Request {
    /// The sixteen bytes that [`crate::batch`] takes it by, which are those of its entry on a card.
    pub const fn sector(self) -> [u8; 16] {
        let (kind, status, bib, at, time) = match self {
            Request::Post { bib, at, status, time } => (1, status.number() as u8, bib, at, time),
            Request::Strike { bib, at } => (2, 0, bib, at, 0),
        };
        let ([b0, b1, b2, b3], [a0, a1, a2, a3]) = (bib.to_le_bytes(), at.to_le_bytes());
        let [t0, t1, t2, t3] = time.to_le_bytes();
        [kind, status, 0, 0, b0, b1, b2, b3, a0, a1, a2, a3, t0, t1, t2, t3]
    }
}
