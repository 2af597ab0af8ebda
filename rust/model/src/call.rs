//! The calls as a table and as values, so that one check runs against any implementation.

use crate::{journal, Answer, Digits, State, Tally};

/// A season card: the source and its stamp, the target and its geometry.
pub type Copying = fn(&[u8], u32, &mut [u8], u32, u32, u32, u32) -> u32;

/// One implementation's calls.
#[derive(Clone, Copy)]
pub struct Calls {
    pub format: fn(&mut [u8], u32, u32, u32, u32) -> Answer,
    pub post: fn(&mut [u8], u32, u32, u32, u32) -> Answer,
    pub strike: fn(&mut [u8], u32, u32) -> Answer,
    pub batch: fn(&mut [u8], &[u8], &mut [u8]) -> u32,
    pub look: fn(&[u8], u32, u32) -> Answer,
    pub next: fn(&[u8], u32, u32) -> Answer,
    pub season: Copying,
    pub history: fn(&[u8], u32, u32, &mut [u8]) -> Tally,
    pub state: fn(&[u8]) -> State,
    pub digits: fn(u32, u32) -> Digits,
}

/// This package's own.
pub const MODEL: Calls = Calls {
    format: crate::format,
    post: crate::post,
    strike: crate::strike,
    batch: crate::batch,
    look: crate::look,
    next: crate::next,
    season: crate::season,
    history: crate::history,
    state: crate::state,
    digits: crate::digits,
};

/// One implementation's calls on a journal.
#[derive(Clone, Copy)]
pub struct JournalCalls {
    pub post: fn(&mut [u8], u32, u32, u32, u32) -> Answer,
    pub strike: fn(&mut [u8], u32, u32) -> Answer,
    pub look: fn(&[u8], u32, u32) -> Answer,
    pub next: fn(&[u8], u32, u32) -> Answer,
}

/// This package's own.
pub const MODEL_JOURNAL: JournalCalls =
    JournalCalls { post: journal::post, strike: journal::strike, look: journal::look, next: journal::next };

/// A call on a card or, but for a format, on a journal.
#[derive(Clone, Copy, Debug, PartialEq, Eq)]
pub enum Call {
    Format { buckets: u32, sectors: u32, td: u32, ti: u32 },
    Post { bib: u32, at: u32, status: u32, time: u32 },
    Strike { bib: u32, at: u32 },
    Look { bib: u32, at: u32 },
    Next { bib: u32, at: u32 },
}

impl Call {
    pub fn run(self, calls: &Calls, card: &mut [u8]) -> Answer {
        match self {
            Call::Format { buckets, sectors, td, ti } => (calls.format)(card, buckets, sectors, td, ti),
            Call::Post { bib, at, status, time } => (calls.post)(card, bib, at, status, time),
            Call::Strike { bib, at } => (calls.strike)(card, bib, at),
            Call::Look { bib, at } => (calls.look)(card, bib, at),
            Call::Next { bib, at } => (calls.next)(card, bib, at),
        }
    }

    pub fn run_on_journal(self, calls: &JournalCalls, journal: &mut [u8]) -> Answer {
        match self {
            Call::Format { .. } => panic!("no journal is formatted"),
            Call::Post { bib, at, status, time } => (calls.post)(journal, bib, at, status, time),
            Call::Strike { bib, at } => (calls.strike)(journal, bib, at),
            Call::Look { bib, at } => (calls.look)(journal, bib, at),
            Call::Next { bib, at } => (calls.next)(journal, bib, at),
        }
    }
}
