//! All records that stand, one at a time.

use crate::{next, Record, Refusal};
use core::iter::FusedIterator;

/// The records that stand as of a stamp, by rising bib. It holds the card it reads and the bib
/// last given, and nothing else.
#[derive(Clone, Debug)]
pub struct Scroll<'a> {
    card: &'a [u8],
    at: u32,
    bib: u32,
    over: bool,
}

/// Scrolls through a card as of a stamp. A refusal is given once and ends it.
///
/// ```
/// # use card::{Refusal, Shape, Status};
/// # let mut bytes = vec![0; Shape::new(16, 4).bytes().unwrap()];
/// # card::format(&mut bytes, Shape::new(16, 4))?;
/// card::post(&mut bytes, 7, 100, Status::Timed, 59_990)?;
/// card::post(&mut bytes, 5, 110, Status::Timed, 58_120)?;
/// let times: Vec<u32> = card::scroll(&bytes, 110).filter_map(|r| r.unwrap().time).collect();
/// assert_eq!(times, [58_120, 59_990]);
/// assert_eq!(card::scroll(&[], 110).collect::<Vec<_>>(), [Err(Refusal::Layout)]);
/// # Ok::<(), Refusal>(())
/// ```
pub fn scroll(card: &[u8], at: u32) -> Scroll<'_> {
    scroll_above(card, 0, at)
}

/// Scrolls through the records of the bibs above `bib`, as of a stamp.
///
/// ```
/// # use card::{Refusal, Shape, Status};
/// # let mut bytes = vec![0; Shape::new(16, 4).bytes().unwrap()];
/// # card::format(&mut bytes, Shape::new(16, 4))?;
/// card::post(&mut bytes, 7, 100, Status::Timed, 59_990)?;
/// card::post(&mut bytes, 5, 110, Status::Timed, 58_120)?;
/// let mut rest = card::scroll_above(&bytes, 5, 110);
/// assert_eq!(rest.next().unwrap()?.bib, 7);
/// assert_eq!(rest.next(), None);
/// # Ok::<(), Refusal>(())
/// ```
pub fn scroll_above(card: &[u8], bib: u32, at: u32) -> Scroll<'_> {
    Scroll { card, at, bib, over: false }
}

impl Iterator for Scroll<'_> {
    type Item = Result<Record, Refusal>;

    fn next(&mut self) -> Option<Self::Item> {
        if self.over {
            return None;
        }
        let step = next(self.card, self.bib, self.at).transpose();
        match step {
            Some(Ok(record)) => self.bib = record.bib,
            _ => self.over = true,
        }
        step
    }
}

/// The end, and a refusal, are followed by `None` for good.
impl FusedIterator for Scroll<'_> {}
