//! What a card that is opened again says of itself.

use crate::head::Head;
use crate::survey::Survey;

#[derive(Clone, Copy, Debug, Default, PartialEq, Eq)]
pub struct State {
    pub code: u32,
    pub buckets: u32,
    pub sectors: u32,
    pub td: u32,
    pub ti: u32,
    pub begin: u32,
    pub last: u32,
    pub used: u32,
}

/// The head's numbers, the largest stamp as answer 3 reads it, and the bucket that fresh ones come after.
pub fn state(card: &[u8]) -> State {
    let Some(head) = Head::of(card) else { return State { code: 1, ..State::default() } };
    let survey = Survey::of(card, &head);
    State {
        code: 0,
        buckets: head.buckets,
        sectors: head.sectors,
        td: head.td,
        ti: head.ti,
        begin: head.begin,
        last: survey.largest_stamp(),
        used: survey.highest_used(),
    }
}
