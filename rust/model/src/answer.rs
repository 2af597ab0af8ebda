//! What a call answers: the paper's number and five values beside it.

#[derive(Clone, Copy, Debug, Default, PartialEq, Eq)]
pub struct Answer {
    pub code: u32,
    pub bib: u32,
    pub at: u32,
    pub status: u32,
    pub time: u32,
    pub reads: u32,
}

impl Answer {
    /// Accepted, or the end: all zeros.
    pub const ACCEPTED: Answer = Answer { code: 0, bib: 0, at: 0, status: 0, time: 0, reads: 0 };

    /// A refusal gives zeros beside its number.
    pub fn refused(code: u32) -> Answer {
        Answer { code, ..Answer::ACCEPTED }
    }
}

/// What a call answers that lays down sectors: its number, and how many they are.
#[derive(Clone, Copy, Debug, Default, PartialEq, Eq)]
pub struct Tally {
    pub code: u32,
    pub count: usize,
}
