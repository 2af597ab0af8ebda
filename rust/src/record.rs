//! What stands on a card.

use crate::numbers::Answer;
use crate::Status;
use core::fmt;

/// A result that stands: its bib, the stamp of its post, its status, and the time in thousandths of a
/// second, if it is one.
#[derive(Clone, Copy, Debug, PartialEq, Eq, Hash)]
pub struct Record {
    /// The athlete's number, 1 or more.
    pub bib: u32,
    /// The stamp of the post, 1 or more.
    pub at: u32,
    /// Whether it is a time, or why it is none.
    pub status: Status,
    /// The time in thousandths of a second; there is one exactly where the status is [`Status::Timed`].
    pub time: Option<u32>,
}

impl Record {
    /// No record has stamp 0: it marks none, and the end.
    pub(crate) fn of(answer: Answer) -> Option<Record> {
        let Answer { bib, at, status, time, .. } = answer;
        (at != 0).then(|| Record::new(bib, at, Status::of(status), time))
    }

    fn new(bib: u32, at: u32, status: Status, time: u32) -> Record {
        Record { bib, at, status, time: (status == Status::Timed).then_some(time) }
    }

    /// The record in a post sector.
    pub(crate) fn of_sector(sector: &[u8; 16]) -> Record {
        let [_, status, _, _, b0, b1, b2, b3, a0, a1, a2, a3, t0, t1, t2, t3] = *sector;
        let number = |bytes| u32::from_le_bytes(bytes);
        let (bib, at, time) = (number([b0, b1, b2, b3]), number([a0, a1, a2, a3]), number([t0, t1, t2, t3]));
        Record::new(bib, at, Status::of(status.into()), time)
    }
}

/// The time in seconds with all three decimals, or the status where there is none.
///
/// ```
/// use card::{Record, Status};
///
/// let record = Record { bib: 8, at: 10, status: Status::Timed, time: Some(61_230) };
/// assert_eq!(record.to_string(), "bib 8: 61.230 at 10");
/// let none = Record { bib: 8, at: 10, status: Status::DidNotFinish, time: None };
/// assert_eq!(none.to_string(), "bib 8: did not finish at 10");
/// ```
impl fmt::Display for Record {
    fn fmt(&self, f: &mut fmt::Formatter<'_>) -> fmt::Result {
        let Record { bib, at, status, time } = *self;
        match time {
            Some(time) => write!(f, "bib {bib}: {}.{:03} at {at}", time / 1000, time % 1000),
            None => write!(f, "bib {bib}: {status} at {at}"),
        }
    }
}

/// What a look finds, and the buckets it read on the way.
#[derive(Clone, Copy, Debug, PartialEq, Eq, Hash)]
pub struct Look {
    /// What stands, if anything does.
    pub record: Option<Record>,
    /// The buckets on the path, the data bucket among them.
    pub reads: u32,
}
