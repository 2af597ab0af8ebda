//! Why a call was refused.

use core::error::Error;
use core::fmt;

/// Why a call was refused; the card is then as it was. Later versions may have more of them.
#[derive(Clone, Copy, Debug, PartialEq, Eq, Hash)]
#[non_exhaustive]
#[repr(u32)]
pub enum Refusal {
    /// 1: the head or the length breaks the layout; of a [`crate::journal`], that the slice is none.
    Layout = 1,
    /// 2: bib 0.
    NoBib = 2,
    /// 3: the stamp is not above the largest stamp on the card, or of the journal.
    Stamp = 3,
    /// 4: damage met on the root log or on the path.
    Damage = 4,
    /// 5: nothing stands that could be struck.
    NothingStands = 5,
    /// 6: more fresh buckets needed than remain, or than a season's target has, or no blank left in the root
    /// log, or in a journal.
    Full = 6,
    /// 7: the field is not of 4, 5 or 6 digits, or the time is too long for it.
    Panel = 7,
    /// 8: a limit of the shape is broken, or the length is not the shape's.
    Shape = 8,
    /// 9: a byte of the card to be formatted, or of a season's target, is nonzero.
    NotBlank = 9,
    /// 11: a request of a batch is not laid out as a post or a strike.
    NoRequest = 11,
    /// 12: the requests of a batch are not whole, or not as many as the places for their answers.
    Unpaired = 12,
    /// 13: the stamp asked about is before the card's beginning.
    TooEarly = 13,
    /// 14: a status above 3, or a time beside another status than timed.
    NoStatus = 14,
    /// 15: the buffer is too short for all that was said of the bib.
    NoRoom = 15,
}

impl Refusal {
    const ALL: [Refusal; 14] = [
        Refusal::Layout,
        Refusal::NoBib,
        Refusal::Stamp,
        Refusal::Damage,
        Refusal::NothingStands,
        Refusal::Full,
        Refusal::Panel,
        Refusal::Shape,
        Refusal::NotBlank,
        Refusal::NoRequest,
        Refusal::Unpaired,
        Refusal::TooEarly,
        Refusal::NoStatus,
        Refusal::NoRoom,
    ];

    /// The answer number.
    ///
    /// ```
    /// assert_eq!(card::post(&mut [], 1, 1, card::Status::Timed, 0).unwrap_err().number(), 1);
    /// ```
    pub const fn number(self) -> u32 {
        self as u32
    }
}

/// The refusal that the library answers by a number; 0 is none.
pub(crate) fn refused(number: u32) -> Option<Refusal> {
    (number != 0).then(|| Refusal::try_from(number).expect("the library answers by these numbers"))
}

/// The answer number.
impl From<Refusal> for u32 {
    fn from(refusal: Refusal) -> u32 {
        refusal.number()
    }
}

/// The refusal with this number. 0 is none, for it is no refusal.
///
/// ```
/// use card::{NoRefusal, Refusal};
/// assert_eq!(Refusal::try_from(6), Ok(Refusal::Full));
/// assert_eq!(Refusal::try_from(0), Err(NoRefusal(0)));
/// ```
impl TryFrom<u32> for Refusal {
    type Error = NoRefusal;

    fn try_from(number: u32) -> Result<Refusal, NoRefusal> {
        Refusal::ALL.into_iter().find(|refusal| refusal.number() == number).ok_or(NoRefusal(number))
    }
}

impl fmt::Display for Refusal {
    fn fmt(&self, f: &mut fmt::Formatter<'_>) -> fmt::Result {
        f.write_str(match self {
            Refusal::Layout => "the card's head or length breaks the layout",
            Refusal::NoBib => "bib 0 is no bib",
            Refusal::Stamp => "the stamp is not above the largest on the card",
            Refusal::Damage => "the card is damaged on the log or path",
            Refusal::NothingStands => "nothing stands for this bib",
            Refusal::Full => "the card is full",
            Refusal::Panel => "the time does not fit the field",
            Refusal::Shape => "the shape breaks a limit or is not of the card's length",
            Refusal::NotBlank => "the card is not blank",
            Refusal::NoRequest => "the request is not laid out as a post or a strike",
            Refusal::Unpaired => "the requests are not whole or not as many as the answers",
            Refusal::TooEarly => "the stamp asked about is before the card's beginning",
            Refusal::NoStatus => "the status is none, or has a time beside it",
            Refusal::NoRoom => "the buffer is too short",
        })
    }
}

impl Error for Refusal {}

/// A number that no refusal has.
#[derive(Clone, Copy, Debug, PartialEq, Eq, Hash)]
pub struct NoRefusal(pub u32);

impl fmt::Display for NoRefusal {
    fn fmt(&self, f: &mut fmt::Formatter<'_>) -> fmt::Result {
        write!(f, "no refusal has the number {}", self.0)
    }
}

impl Error for NoRefusal {}
