//! The calls, in Rust types.

use crate::numbers::{self, Answer};
use crate::refusal::refused;
use crate::{Answers, History, Look, Panel, Record, Records, Refusal, Shape, State, Status};

/// The answer of an accepted call, or the refusal.
pub(crate) fn accepted(answer: Answer) -> Result<Answer, Refusal> {
    refused(answer.code).map_or(Ok(answer), Err)
}

/// Makes a blank card, all bytes zero and as long as the shape asks, an empty one.
///
/// Refused as [`Refusal::Shape`] or [`Refusal::NotBlank`].
///
/// ```
/// use card::{Refusal, Shape};
///
/// let shape = Shape::new(16, 4);
/// let mut bytes = vec![0; shape.bytes().unwrap()];
/// assert_eq!(card::format(&mut bytes, shape), Ok(()));
/// assert_eq!(card::format(&mut bytes, shape), Err(Refusal::NotBlank));
/// assert_eq!(card::format(&mut bytes[1..], shape), Err(Refusal::Shape));
/// ```
pub fn format(card: &mut [u8], shape: Shape) -> Result<(), Refusal> {
    accepted(numbers::format(card, shape.buckets, shape.sectors, shape.td, shape.ti)).map(drop)
}

/// Writes a result for a bib: a first one or a correction. The stamp has to be above every stamp on
/// the card. The time is 0 unless the status is [`Status::Timed`].
///
/// Refused as [`Refusal::Layout`], [`Refusal::NoBib`], [`Refusal::NoStatus`], [`Refusal::Stamp`],
/// [`Refusal::Damage`] or [`Refusal::Full`], the first of these that holds.
///
/// ```
/// # use card::{Refusal, Shape, Status};
/// # let mut bytes = vec![0; Shape::new(16, 4).bytes().unwrap()];
/// # card::format(&mut bytes, Shape::new(16, 4))?;
/// card::post(&mut bytes, 7, 100, Status::Timed, 59_990)?;
/// assert_eq!(card::post(&mut bytes, 7, 100, Status::Timed, 59_980), Err(Refusal::Stamp));
/// card::post(&mut bytes, 7, 101, Status::Timed, 59_980)?;
/// assert_eq!(card::look(&bytes, 7, 101)?.record.unwrap().time, Some(59_980));
/// # Ok::<(), Refusal>(())
/// ```
pub fn post(card: &mut [u8], bib: u32, at: u32, status: Status, time: u32) -> Result<(), Refusal> {
    accepted(numbers::post(card, bib, at, status.number(), time)).map(drop)
}

/// Erases what stands for a bib. It is still there for questions as of an earlier stamp.
///
/// Refused as [`post`] is, and as [`Refusal::NothingStands`] ahead of [`Refusal::Full`].
///
/// ```
/// # use card::{Refusal, Shape, Status};
/// # let mut bytes = vec![0; Shape::new(16, 4).bytes().unwrap()];
/// # card::format(&mut bytes, Shape::new(16, 4))?;
/// card::post(&mut bytes, 7, 100, Status::Timed, 59_990)?;
/// card::strike(&mut bytes, 7, 101)?;
/// assert_eq!(card::strike(&mut bytes, 7, 102), Err(Refusal::NothingStands));
/// # Ok::<(), Refusal>(())
/// ```
pub fn strike(card: &mut [u8], bib: u32, at: u32) -> Result<(), Refusal> {
    accepted(numbers::strike(card, bib, at)).map(drop)
}

/// Makes many posts and strikes in one call, each of them a sector as [`crate::Request::sector`] gives it.
/// Card and answers are those that the same calls one by one would leave and give, and a refused request
/// does not stop the batch; but the whole card, which each single call reads for its largest stamp, is read
/// but once or twice for them all.
///
/// There is a byte of `answers` for each request, else the batch is refused as [`Refusal::Unpaired`] and no
/// byte changes. Each request is answered by itself: as [`Refusal::Layout`], as [`Refusal::NoRequest`] where
/// its kind is not 1 or 2, where byte 2 or 3 is not zero or where a strike has a status or a value, or as
/// [`post`] and [`strike`] are, the first of these that holds.
///
/// ```
/// use card::{Refusal, Request, Shape, Status};
///
/// let mut bytes = vec![0; Shape::new(16, 4).bytes().unwrap()];
/// card::format(&mut bytes, Shape::new(16, 4))?;
/// let sheet = [
///     Request::Post { bib: 7, at: 100, status: Status::Timed, time: 59_990 },
///     Request::Post { bib: 5, at: 90, status: Status::Timed, time: 58_120 }, // a stamp that runs backwards
///     Request::Strike { bib: 7, at: 110 },
/// ];
/// let mut numbers = [0; 3];
/// let mut answers = card::batch(&mut bytes, &sheet.map(Request::sector), &mut numbers)?;
/// assert_eq!(answers.next(), Some(Ok(())));
/// assert_eq!(answers.next(), Some(Err(Refusal::Stamp)));
/// assert_eq!(answers.next(), Some(Ok(())));
/// assert_eq!(card::look(&bytes, 7, 109)?.record.unwrap().time, Some(59_990));
/// # Ok::<(), Refusal>(())
/// ```
pub fn batch<'a>(
    card: &mut [u8],
    requests: &[[u8; 16]],
    answers: &'a mut [u8],
) -> Result<Answers<'a>, Refusal> {
    match refused(numbers::batch(card, requests.as_flattened(), answers)) {
        Some(refusal) => Err(refusal),
        None => Ok(Answers::of(answers)),
    }
}

/// What stands for a bib as of a stamp, and the buckets read to find it.
///
/// Refused as [`Refusal::Layout`], [`Refusal::NoBib`], [`Refusal::TooEarly`] or [`Refusal::Damage`].
///
/// ```
/// # use card::{Look, Record, Refusal, Shape, Status};
/// # let mut bytes = vec![0; Shape::new(16, 4).bytes().unwrap()];
/// # card::format(&mut bytes, Shape::new(16, 4))?;
/// card::post(&mut bytes, 7, 100, Status::Timed, 59_990)?;
/// let record = Record { bib: 7, at: 100, status: Status::Timed, time: Some(59_990) };
/// assert_eq!(card::look(&bytes, 7, 200), Ok(Look { record: Some(record), reads: 2 }));
/// assert_eq!(card::look(&bytes, 7, 99), Ok(Look { record: None, reads: 2 }));
/// # Ok::<(), Refusal>(())
/// ```
pub fn look(card: &[u8], bib: u32, at: u32) -> Result<Look, Refusal> {
    let answer = accepted(numbers::look(card, bib, at))?;
    Ok(Look { record: Record::of(answer), reads: answer.reads })
}

/// The record of the smallest bib above `bib` that stands as of a stamp, or `None` at the end.
/// From bib 0 it is the first record of the card; [`crate::scroll`] gives them all.
///
/// Refused as [`Refusal::Layout`], [`Refusal::TooEarly`] or [`Refusal::Damage`].
///
/// ```
/// # use card::{Refusal, Shape, Status};
/// # let mut bytes = vec![0; Shape::new(16, 4).bytes().unwrap()];
/// # card::format(&mut bytes, Shape::new(16, 4))?;
/// card::post(&mut bytes, 7, 100, Status::Timed, 59_990)?;
/// assert_eq!(card::next(&bytes, 0, 100)?.unwrap().bib, 7);
/// assert_eq!(card::next(&bytes, 7, 100)?, None);
/// # Ok::<(), Refusal>(())
/// ```
pub fn next(card: &[u8], bib: u32, at: u32) -> Result<Option<Record>, Refusal> {
    accepted(numbers::next(card, bib, at)).map(Record::of)
}

/// The records that [`next`] gives one after the other above `bib`, as many as there are and as fit into
/// `out`, in one call. They lie at its start as post sectors of 16 bytes each; the bytes behind them stay.
///
/// Refused as [`next`] is: a broken head, or a stamp before the beginning, also where `out` has no room for a
/// record; damage where it is met before `out` is full. Then `out` is as it was.
///
/// ```
/// # use card::{Refusal, Shape, Status};
/// # let mut bytes = vec![0; Shape::new(16, 4).bytes().unwrap()];
/// # card::format(&mut bytes, Shape::new(16, 4))?;
/// card::post(&mut bytes, 7, 100, Status::Timed, 59_990)?;
/// card::post(&mut bytes, 5, 110, Status::Timed, 58_120)?;
/// let mut page = [0; 16 * 20];
/// let records = card::records(&bytes, 0, 110, &mut page)?;
/// assert_eq!(records.len(), 2);
/// let bibs: Vec<u32> = records.map(|record| record.bib).collect();
/// assert_eq!(bibs, [5, 7]);
/// assert_eq!(page[..8], [1, 0, 0, 0, 5, 0, 0, 0]);
/// # Ok::<(), Refusal>(())
/// ```
pub fn records<'a>(card: &[u8], bib: u32, at: u32, out: &'a mut [u8]) -> Result<Records<'a>, Refusal> {
    let tally = numbers::records(card, bib, at, out);
    match refused(tally.code) {
        Some(refusal) => Err(refusal),
        None => Ok(Records::of(out, tally.count)),
    }
}

/// Everything ever said of a bib up to a stamp: its posts and strikes, each once, by rising stamp. On a season
/// card that begins with the record it began with, if there was one. They lie at the start of `out` as sectors of
/// 16 bytes each, laid out as [`crate::Request::sector`] gives them; the bytes behind them stay.
///
/// Refused as [`Refusal::Layout`], [`Refusal::NoBib`], [`Refusal::TooEarly`], [`Refusal::Damage`] where any sector
/// of the buckets is damaged, on a path or not, or [`Refusal::NoRoom`] where `out` does not hold them all, the
/// first of these that holds. Then `out` is as it was.
///
/// ```
/// # use card::{Refusal, Shape, Status};
/// # let mut bytes = vec![0; Shape::new(16, 4).bytes().unwrap()];
/// # card::format(&mut bytes, Shape::new(16, 4))?;
/// use card::Entry;
///
/// card::post(&mut bytes, 7, 100, Status::Timed, 59_990)?;
/// card::post(&mut bytes, 5, 105, Status::Timed, 58_120)?;
/// card::post(&mut bytes, 7, 110, Status::Disqualified, 0)?;
/// card::strike(&mut bytes, 7, 120)?;
/// let mut page = [0; 16 * 20];
/// let mut said = card::history(&bytes, 7, 120, &mut page)?;
/// assert_eq!(said.len(), 3);
/// assert!(matches!(said.next(), Some(Entry::Post(record)) if record.time == Some(59_990)));
/// assert_eq!(said.next().unwrap().at(), 110);
/// assert_eq!(said.next(), Some(Entry::Strike { bib: 7, at: 120 }));
/// assert_eq!(card::history(&bytes, 7, 119, &mut page)?.len(), 2);
/// assert_eq!(card::history(&bytes, 7, 120, &mut page[..47]).map(drop), Err(Refusal::NoRoom));
/// # Ok::<(), Refusal>(())
/// ```
pub fn history<'a>(card: &[u8], bib: u32, at: u32, out: &'a mut [u8]) -> Result<History<'a>, Refusal> {
    let tally = numbers::history(card, bib, at, out);
    match refused(tally.code) {
        Some(refusal) => Err(refusal),
        None => Ok(History::of(out, tally.count)),
    }
}

/// Begins a fresh card with what stands on a full one: the season card of `card` as of `at`, made on a blank
/// `target` that is as long as the shape asks. Each record keeps its stamp. From its beginning `at` on the
/// target answers by these records and by what is written to it; questions as of an earlier stamp are refused
/// there as [`Refusal::TooEarly`]. Posts and strikes on it have stamps above `at`, so that `at` is best the
/// card's last stamp ([`State::last`]). A season card can be copied again.
///
/// Refused as [`Refusal::Layout`] or [`Refusal::TooEarly`] for the card, [`Refusal::Shape`] or
/// [`Refusal::NotBlank`] for the target, [`Refusal::Damage`] where a scroll through the card would be, or
/// [`Refusal::Full`] where the target has too few buckets, the first of these that holds. Then the target is
/// as it was.
///
/// ```
/// # use card::{Refusal, Shape, Status};
/// # let mut bytes = vec![0; Shape::new(16, 4).bytes().unwrap()];
/// # card::format(&mut bytes, Shape::new(16, 4))?;
/// card::post(&mut bytes, 7, 100, Status::Timed, 59_990)?;
/// card::post(&mut bytes, 5, 110, Status::Timed, 58_120)?;
/// card::strike(&mut bytes, 5, 120)?;
/// let shape = Shape::new(40, 8);
/// let mut fresh = vec![0; shape.bytes().unwrap()];
/// card::season(&bytes, 120, &mut fresh, shape)?;
/// assert_eq!(card::look(&fresh, 7, 120)?.record.unwrap().at, 100);
/// assert_eq!(card::look(&fresh, 5, 120)?.record, None);
/// assert_eq!(card::look(&fresh, 5, 119), Err(Refusal::TooEarly));
/// assert_eq!(card::state(&fresh)?.begin, 120);
/// assert_eq!(card::post(&mut fresh, 5, 120, Status::Timed, 58_110), Err(Refusal::Stamp));
/// card::post(&mut fresh, 5, 121, Status::Timed, 58_110)?;
/// # Ok::<(), Refusal>(())
/// ```
pub fn season(card: &[u8], at: u32, target: &mut [u8], shape: Shape) -> Result<(), Refusal> {
    let Shape { buckets, sectors, td, ti } = shape;
    refused(numbers::season(card, at, target, buckets, sectors, td, ti)).map_or(Ok(()), Err)
}

/// What a program has to know of a card that it opens again: its shape, its largest stamp and how many
/// buckets are used. On a card that these calls have made, the largest stamp is that of the last post or
/// strike that was accepted.
///
/// Refused as [`Refusal::Layout`] alone: damage is not asked for.
///
/// ```
/// # use card::{Refusal, Shape, Status};
/// # let mut bytes = vec![0; Shape::new(16, 4).bytes().unwrap()];
/// # card::format(&mut bytes, Shape::new(16, 4))?;
/// card::post(&mut bytes, 7, 100, Status::Timed, 59_990)?;
/// card::strike(&mut bytes, 7, 110)?;
/// let state = card::state(&bytes)?;
/// assert_eq!((state.last, state.used), (110, 2));
/// assert_eq!(state.shape, Shape::new(16, 4).td(2).ti(4));
/// # Ok::<(), Refusal>(())
/// ```
pub fn state(card: &[u8]) -> Result<State, Refusal> {
    let numbers::State { code, buckets, sectors, td, ti, begin, last, used } = numbers::state(card);
    let shape = Shape { buckets, sectors, td, ti };
    refused(code).map_or(Ok(State { shape, begin, last, used }), Err)
}

/// The digits of a time in thousandths on a panel field of 4, 5 or 6 places: seconds and
/// hundredths, then one or two minute digits. A time that is no whole hundredth goes to the next
/// longer one, and then has to fit.
///
/// Refused as [`Refusal::Panel`] where the time does not fit or there is no such field.
///
/// ```
/// assert_eq!(card::digits(59_990, 4)?.digits(), [5, 9, 9, 9]);
/// assert_eq!(card::digits(59_991, 4), Err(card::Refusal::Panel));
/// assert_eq!(card::digits(59_981, 4)?.to_string(), "59.99");
/// assert_eq!(card::digits(60_000, 5)?.to_string(), "1:00.00");
/// # Ok::<(), card::Refusal>(())
/// ```
pub fn digits(time: u32, field: u32) -> Result<Panel, Refusal> {
    let answer = numbers::digits(time, field);
    match refused(answer.code) {
        Some(refusal) => Err(refusal),
        None => Ok(Panel { places: answer.places, field: field as usize }),
    }
}
