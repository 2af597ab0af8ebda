//! The calls as the library itself answers them: a number and the values beside it.
//!
//! The functions of the crate's root say the same in Rust types; these are for a caller that
//! stores or prints the numbers.

/// A call's answer: its number, 0 or a refusal, and five values, all zero beside a refusal.
#[repr(C)]
#[derive(Clone, Copy, Debug, Default, PartialEq, Eq)]
pub struct Answer {
    /// 0, or the number of a refusal.
    pub code: u32,
    /// The record's bib.
    pub bib: u32,
    /// Its stamp; 0 is no record.
    pub at: u32,
    /// Its status: 0 timed, 1 did not finish, 2 disqualified, 3 did not start.
    pub status: u32,
    /// Its time in thousandths of a second.
    pub time: u32,
    /// The buckets read, in [`look`] only; a journal has none.
    pub reads: u32,
}

/// The answer to [`records`] and to [`history`]: its number, 0 or a refusal, and how many were laid down.
#[repr(C)]
#[derive(Clone, Copy, Debug, Default, PartialEq, Eq)]
pub struct Tally {
    /// 0, or the number of a refusal.
    pub code: u32,
    /// The records or entries laid down.
    pub count: usize,
}

/// The answer to [`state`]: its number, 0 or 1, and seven values, all zero beside a refusal.
#[repr(C)]
#[derive(Clone, Copy, Debug, Default, PartialEq, Eq)]
pub struct State {
    /// 0 or 1.
    pub code: u32,
    /// The card's buckets.
    pub buckets: u32,
    /// The sectors of a bucket.
    pub sectors: u32,
    /// The threshold for data buckets, never 0.
    pub td: u32,
    /// The threshold for index buckets, never 0.
    pub ti: u32,
    /// The stamp from which the card answers: 0 unless it is a season card.
    pub begin: u32,
    /// The largest stamp, or 0.
    pub last: u32,
    /// The highest bucket used, or 0.
    pub used: u32,
}

/// The panel routine's answer: its number, 0 or 7, and six places, all zero beside a refusal.
#[repr(C)]
#[derive(Clone, Copy, Debug, Default, PartialEq, Eq)]
pub struct Digits {
    /// 0 or 7.
    pub code: u32,
    /// The digits, highest first; places past the field are 0.
    pub places: [u8; 6],
}

// as include/card.h has them
const _: () = assert!(size_of::<Answer>() == 24 && size_of::<Digits>() == 12);
const _: () = assert!(size_of::<Tally>() == 16 && size_of::<State>() == 32);

mod library {
    use super::{Answer, Digits, State, Tally};

    extern "C" {
        pub fn card_format(card: *mut u8, len: usize, buckets: u32, sectors: u32, td: u32, ti: u32)
            -> Answer;
        pub fn card_post(card: *mut u8, len: usize, bib: u32, at: u32, status: u32, time: u32) -> Answer;
        pub fn card_strike(card: *mut u8, len: usize, bib: u32, at: u32) -> Answer;
        pub fn card_batch(
            card: *mut u8,
            len: usize,
            requests: *const u8,
            requests_len: usize,
            answers: *mut u8,
            answers_len: usize,
        ) -> u32;
        pub fn card_look(card: *const u8, len: usize, bib: u32, at: u32) -> Answer;
        pub fn card_next(card: *const u8, len: usize, bib: u32, at: u32) -> Answer;
        pub fn card_records(
            card: *const u8,
            len: usize,
            bib: u32,
            at: u32,
            out: *mut u8,
            room: usize,
        ) -> Tally;
        pub fn card_history(
            card: *const u8,
            len: usize,
            bib: u32,
            at: u32,
            out: *mut u8,
            room: usize,
        ) -> Tally;
        pub fn card_season(
            card: *const u8,
            len: usize,
            at: u32,
            target: *mut u8,
            target_len: usize,
            buckets: u32,
            sectors: u32,
            td: u32,
            ti: u32,
        ) -> u32;
        pub fn card_state(card: *const u8, len: usize) -> State;
        pub fn card_digits(time: u32, field: u32) -> Digits;
        pub fn journal_post(
            journal: *mut u8,
            len: usize,
            bib: u32,
            at: u32,
            status: u32,
            time: u32,
        ) -> Answer;
        pub fn journal_strike(journal: *mut u8, len: usize, bib: u32, at: u32) -> Answer;
        pub fn journal_look(journal: *const u8, len: usize, bib: u32, at: u32) -> Answer;
        pub fn journal_next(journal: *const u8, len: usize, bib: u32, at: u32) -> Answer;
    }
}

// Each call below is sound for one reason: the library takes every card, journal, request and number,
// and it reads and writes only the bytes lent to it, as many from each pointer as the length behind it says,
// which the slices lend for the call alone. Slices of which one can be written never overlap.

/// As [`crate::format`].
pub fn format(card: &mut [u8], buckets: u32, sectors: u32, td: u32, ti: u32) -> Answer {
    unsafe { library::card_format(card.as_mut_ptr(), card.len(), buckets, sectors, td, ti) }
}

/// As [`crate::post`].
pub fn post(card: &mut [u8], bib: u32, at: u32, status: u32, time: u32) -> Answer {
    unsafe { library::card_post(card.as_mut_ptr(), card.len(), bib, at, status, time) }
}

/// As [`crate::strike`].
pub fn strike(card: &mut [u8], bib: u32, at: u32) -> Answer {
    unsafe { library::card_strike(card.as_mut_ptr(), card.len(), bib, at) }
}

/// As [`crate::batch`], its requests as bytes: 0, or 12, which is also given where their number is no
/// multiple of 16. Each byte of `answers` is then the number of an answer, or as it was.
pub fn batch(card: &mut [u8], requests: &[u8], answers: &mut [u8]) -> u32 {
    unsafe {
        library::card_batch(
            card.as_mut_ptr(),
            card.len(),
            requests.as_ptr(),
            requests.len(),
            answers.as_mut_ptr(),
            answers.len(),
        )
    }
}

/// As [`crate::look`].
pub fn look(card: &[u8], bib: u32, at: u32) -> Answer {
    unsafe { library::card_look(card.as_ptr(), card.len(), bib, at) }
}

/// As [`crate::next`].
pub fn next(card: &[u8], bib: u32, at: u32) -> Answer {
    unsafe { library::card_next(card.as_ptr(), card.len(), bib, at) }
}

/// As [`crate::records`].
pub fn records(card: &[u8], bib: u32, at: u32, out: &mut [u8]) -> Tally {
    unsafe { library::card_records(card.as_ptr(), card.len(), bib, at, out.as_mut_ptr(), out.len()) }
}

/// As [`crate::history`].
pub fn history(card: &[u8], bib: u32, at: u32, out: &mut [u8]) -> Tally {
    unsafe { library::card_history(card.as_ptr(), card.len(), bib, at, out.as_mut_ptr(), out.len()) }
}

/// As [`crate::season`]: 0, or the number of its refusal.
pub fn season(card: &[u8], at: u32, target: &mut [u8], buckets: u32, sectors: u32, td: u32, ti: u32) -> u32 {
    let (from, to) = (card.as_ptr(), target.as_mut_ptr());
    unsafe { library::card_season(from, card.len(), at, to, target.len(), buckets, sectors, td, ti) }
}

/// As [`crate::state`].
pub fn state(card: &[u8]) -> State {
    unsafe { library::card_state(card.as_ptr(), card.len()) }
}

/// As [`crate::digits`].
pub fn digits(time: u32, field: u32) -> Digits {
    unsafe { library::card_digits(time, field) }
}

/// As [`crate::journal::post`].
pub fn journal_post(journal: &mut [u8], bib: u32, at: u32, status: u32, time: u32) -> Answer {
    unsafe { library::journal_post(journal.as_mut_ptr(), journal.len(), bib, at, status, time) }
}

/// As [`crate::journal::strike`].
pub fn journal_strike(journal: &mut [u8], bib: u32, at: u32) -> Answer {
    unsafe { library::journal_strike(journal.as_mut_ptr(), journal.len(), bib, at) }
}

/// As [`crate::journal::look`].
pub fn journal_look(journal: &[u8], bib: u32, at: u32) -> Answer {
    unsafe { library::journal_look(journal.as_ptr(), journal.len(), bib, at) }
}

/// As [`crate::journal::next`].
pub fn journal_next(journal: &[u8], bib: u32, at: u32) -> Answer {
    unsafe { library::journal_next(journal.as_ptr(), journal.len(), bib, at) }
}
