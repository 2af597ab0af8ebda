//! A morning's results at once: what a post or strike reads off the whole card is read once for them all.

use crate::head::Head;
use crate::log::Log;
use crate::rewrite::Taken;
use crate::sector::{sectors, Entry, POST, SECTOR, STRIKE};
use crate::survey::Survey;
use crate::writing::{enter, NOW};

/// Answers requests in the sector layout, a byte for each, as their calls one by one would be answered.
pub fn batch(card: &mut [u8], requests: &[u8], answers: &mut [u8]) -> u32 {
    if !requests.len().is_multiple_of(SECTOR) || requests.len() / SECTOR != answers.len() {
        return 12;
    }
    let Some(head) = Head::of(card) else {
        answers.fill(1);
        return 0;
    };
    let mut known = Known::of(card, &head);
    for (request, answer) in sectors(requests).iter().zip(answers) {
        *answer = match known.enter(card, &head, Entry::of(request)) {
            Ok(()) => 0,
            Err(number) => number as u8,
        };
    }
    0
}

/// What the next request has to know of the card.
struct Known {
    largest_stamp: u32,
    /// `None` where the log is damaged: then no request is accepted, and it stays so.
    taken: Option<Taken>,
}

impl Known {
    fn of(card: &[u8], head: &Head) -> Known {
        let survey = Survey::of(card, head);
        let log = Log::judged(head.log(card), head.buckets, NOW);
        Known {
            largest_stamp: survey.largest_stamp(),
            taken: log.map(|log| Taken { buckets: survey.highest_used(), log: log.len, root: log.root }),
        }
    }

    /// Answers one request, or gives its refusal.
    fn enter(&mut self, card: &mut [u8], head: &Head, request: Entry) -> Result<(), u32> {
        if !is_well_asked(request) {
            return Err(11);
        }
        if request.key == 0 {
            return Err(2);
        }
        if !request.has_sound_status() {
            return Err(14);
        }
        if request.stamp <= self.largest_stamp {
            return Err(3);
        }
        let taken = self.taken.ok_or(4u32)?;
        self.taken = Some(enter(card, head, taken, request)?);
        self.largest_stamp = request.stamp;
        Ok(())
    }
}

/// Kind 1 or 2, bytes 2..3 zero, which the kind is read with, and no strike with a status or a value.
fn is_well_asked(request: Entry) -> bool {
    request.kind == POST || request.kind == STRIKE && request.status == 0 && request.value == 0
}
