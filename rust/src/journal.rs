//! The plain journal: a second engine, for a controller that has no room for a card's tree.
//!
//! A journal is a slice of sectors of 16 bytes, blank at first: all zero. Each accepted post or strike goes to
//! the first blank sector, laid out as on a card, and every question reads the slice through. So a slice holds
//! as many entries as it has sectors, there is nothing to format, and a question takes the longer the more was
//! written: `docs/PERFORMANCE.md` says from where on a card is quicker.
//!
//! The calls answer as [`crate::post`], [`crate::strike`], [`crate::look`] and [`crate::next`] do on a card, as
//! long as neither of the two is full, but for the buckets read, of which a journal has none.
//!
//! ```
//! use card::{journal, Record, Refusal, Status};
//!
//! let mut bytes = [0; 16 * 3];
//! journal::post(&mut bytes, 8, 10, Status::Timed, 61_230)?;
//! journal::post(&mut bytes, 3, 20, Status::Timed, 58_900)?;
//! journal::strike(&mut bytes, 8, 50)?;
//!
//! // as of stamp 49 the time of bib 8 stands, as of 50 it does not
//! assert_eq!(journal::look(&bytes, 8, 49)?, Some(Record { bib: 8, at: 10, status: Status::Timed, time: Some(61_230) }));
//! assert_eq!(journal::look(&bytes, 8, 50)?, None);
//!
//! // three sectors, three entries
//! assert_eq!(journal::post(&mut bytes, 5, 60, Status::Timed, 60_000), Err(Refusal::Full));
//! # Ok::<(), Refusal>(())
//! ```

use crate::calls::accepted;
use crate::{numbers, Record, Refusal, Status};

/// Writes a result for a bib: a first one or a correction. The stamp has to be above every stamp of the journal.
/// The time is 0 unless the status is [`Status::Timed`].
///
/// Refused as [`Refusal::Layout`], [`Refusal::NoBib`], [`Refusal::NoStatus`], [`Refusal::Stamp`] or
/// [`Refusal::Full`], the first of these that holds. A slice is a journal if its length is a multiple of 16 and its sectors are posts and
/// strikes with rising stamps, then blanks; an empty one is a full journal.
///
/// ```
/// use card::{journal, Refusal, Status};
///
/// let mut bytes = [0; 32];
/// journal::post(&mut bytes, 7, 100, Status::Timed, 59_990)?;
/// assert_eq!(bytes[..16], [1, 0, 0, 0, 7, 0, 0, 0, 100, 0, 0, 0, 0x56, 0xea, 0, 0]);
/// assert_eq!(journal::post(&mut bytes, 7, 100, Status::Timed, 59_980), Err(Refusal::Stamp));
/// journal::post(&mut bytes, 7, 101, Status::Timed, 59_980)?;
/// assert_eq!(journal::post(&mut bytes, 7, 102, Status::Timed, 59_970), Err(Refusal::Full));
/// assert_eq!(journal::post(&mut bytes[1..], 7, 102, Status::Timed, 59_970), Err(Refusal::Layout));
/// # Ok::<(), Refusal>(())
/// ```
pub fn post(journal: &mut [u8], bib: u32, at: u32, status: Status, time: u32) -> Result<(), Refusal> {
    accepted(numbers::journal_post(journal, bib, at, status.number(), time)).map(drop)
}

/// Erases what stands for a bib. It is still there for questions as of an earlier stamp.
///
/// Refused as [`post`] is, and as [`Refusal::NothingStands`] ahead of [`Refusal::Full`].
///
/// ```
/// use card::{journal, Refusal, Status};
///
/// let mut bytes = [0; 32];
/// journal::post(&mut bytes, 7, 100, Status::Timed, 59_990)?;
/// journal::strike(&mut bytes, 7, 101)?;
/// assert_eq!(journal::strike(&mut bytes, 7, 102), Err(Refusal::NothingStands));
/// # Ok::<(), Refusal>(())
/// ```
pub fn strike(journal: &mut [u8], bib: u32, at: u32) -> Result<(), Refusal> {
    accepted(numbers::journal_strike(journal, bib, at)).map(drop)
}

/// What stands for a bib as of a stamp.
///
/// Refused as [`Refusal::Layout`] or [`Refusal::NoBib`].
///
/// ```
/// use card::{journal, Refusal, Status};
///
/// let mut bytes = [0; 160];
/// journal::post(&mut bytes, 7, 100, Status::Timed, 59_990)?;
/// journal::post(&mut bytes, 7, 110, Status::Timed, 59_980)?;
/// assert_eq!(journal::look(&bytes, 7, 109)?.unwrap().time, Some(59_990));
/// assert_eq!(journal::look(&bytes, 7, 110)?.unwrap().time, Some(59_980));
/// assert_eq!(journal::look(&bytes, 7, 99)?, None);
/// # Ok::<(), Refusal>(())
/// ```
pub fn look(journal: &[u8], bib: u32, at: u32) -> Result<Option<Record>, Refusal> {
    accepted(numbers::journal_look(journal, bib, at)).map(Record::of)
}

/// The record of the smallest bib above `bib` that stands as of a stamp, or `None` at the end. From bib 0 it is
/// the first record of the journal.
///
/// Refused as [`Refusal::Layout`].
///
/// ```
/// use card::{journal, Refusal, Status};
///
/// let mut bytes = [0; 160];
/// journal::post(&mut bytes, 7, 100, Status::Timed, 59_990)?;
/// journal::post(&mut bytes, 5, 110, Status::Timed, 58_120)?;
/// let mut bibs = Vec::new();
/// while let Some(record) = journal::next(&bytes, bibs.last().copied().unwrap_or(0), 110)? {
///     bibs.push(record.bib);
/// }
/// assert_eq!(bibs, [5, 7]);
/// # Ok::<(), Refusal>(())
/// ```
pub fn next(journal: &[u8], bib: u32, at: u32) -> Result<Option<Record>, Refusal> {
    accepted(numbers::journal_next(journal, bib, at)).map(Record::of)
}
