//! What a result says beside its time.

use core::fmt;

/// Whether a result is a time, or why it is none. Each of them stands until it is corrected or struck.
///
/// ```
/// use card::Status;
/// assert_eq!(Status::DidNotFinish.number(), 1);
/// assert_eq!(Status::Disqualified.to_string(), "disqualified");
/// ```
#[derive(Clone, Copy, Debug, Default, PartialEq, Eq, Hash)]
#[repr(u32)]
pub enum Status {
    /// 0: a time.
    #[default]
    Timed = 0,
    /// 1: did not finish.
    DidNotFinish = 1,
    /// 2: was disqualified.
    Disqualified = 2,
    /// 3: did not start.
    DidNotStart = 3,
}

impl Status {
    /// The number that the calls have for it, and byte 1 of a post.
    pub const fn number(self) -> u32 {
        self as u32
    }

    /// The status with this number, which is one of an answer or of a record.
    pub(crate) fn of(number: u32) -> Status {
        match number {
            0 => Status::Timed,
            1 => Status::DidNotFinish,
            2 => Status::Disqualified,
            3 => Status::DidNotStart,
            _ => unreachable!("the library answers with these statuses"),
        }
    }
}

impl fmt::Display for Status {
    fn fmt(&self, f: &mut fmt::Formatter<'_>) -> fmt::Result {
        f.write_str(match self {
            Status::Timed => "timed",
            Status::DidNotFinish => "did not finish",
            Status::Disqualified => "disqualified",
            Status::DidNotStart => "did not start",
        })
    }
}
