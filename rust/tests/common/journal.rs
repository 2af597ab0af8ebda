//! One journal under the library and under the model, every answer and every byte compared; and what breaks one.

use super::bytes::{get, put, set, Entry};
use super::guarded::Guarded;
use super::pair::{is_question, Tally};
use super::random::Random;
use super::wrapper::WRAPPER_JOURNAL;
use super::LIBRARY_JOURNAL;
use card_model::call::{Call, MODEL_JOURNAL};
use card_model::Answer;

/// A slice of so many sectors that begins with these entries.
pub fn journal(sectors: usize, entries: &[Entry]) -> Vec<u8> {
    let mut bytes = vec![0; 16 * sectors];
    for (i, &entry) in entries.iter().enumerate() {
        put(&mut bytes, i, entry);
    }
    bytes
}

pub struct JournalPair {
    seed: u64,
    lent: Guarded,
    own: Vec<u8>,
    calls: u64,
    pub tally: Tally,
}

impl JournalPair {
    pub fn new(seed: u64, journal: Vec<u8>) -> JournalPair {
        let lent = Guarded::new(&journal, seed as usize % 16);
        JournalPair { seed, lent, own: journal, calls: 0, tally: Tally::default() }
    }

    pub fn bytes(&self) -> &[u8] {
        &self.own
    }

    /// Makes a call on both and gives the answer, which has to be one.
    pub fn call(&mut self, call: Call) -> Answer {
        self.calls += 1;
        let expected = call.run_on_journal(&MODEL_JOURNAL, &mut self.own);
        let answer = self.asked(call);
        if answer != expected {
            self.differs(call, &format!("library {answer:?}, model {expected:?}"));
        }
        if self.lent.card() != self.own {
            let place = (0..self.own.len()).find(|&i| self.lent.card()[i] != self.own[i]).unwrap();
            self.differs(call, &format!("answer {answer:?}, first other byte at {place}"));
        }
        if !self.lent.whole() {
            self.differs(call, "a byte outside the journal was written");
        }
        self.tally[answer.code as usize] += 1;
        answer
    }

    /// The library's answer: a question both ways, a write by the numbers and by the safe functions in turn.
    fn asked(&mut self, call: Call) -> Answer {
        let by_turns = if self.calls.is_multiple_of(2) { LIBRARY_JOURNAL } else { WRAPPER_JOURNAL };
        let answer = call.run_on_journal(&by_turns, self.lent.card_mut());
        if is_question(call) {
            for side in [LIBRARY_JOURNAL, WRAPPER_JOURNAL] {
                let again = call.run_on_journal(&side, self.lent.card_mut());
                if again != answer {
                    self.differs(call, &format!("{answer:?}, and asked again {again:?}"));
                }
            }
        }
        answer
    }

    pub fn differs(&self, call: Call, what: &str) -> ! {
        panic!("CARD_SEED={}: call {} of the round, {call:?}: {what}", self.seed, self.calls)
    }
}

/// Changes the slice somewhere, likely in a way that refusal 1 speaks of. It may get another length.
pub fn spoil(journal: &mut Vec<u8>, random: &mut Random) {
    if journal.len() < 48 {
        journal.resize(random.index(70), random.of(&[0, 0, 1]));
        return;
    }
    let sectors = journal.len() / 16;
    let written = (0..sectors).take_while(|&i| journal[16 * i] != 0).count().max(1);
    let at = 16 * random.index(written);
    let any = 16 * random.index(sectors);
    match random.within(0, 12) {
        0 => journal[at + random.index(16)] = random.byte(),
        1 => journal[at] = random.of(&[0, 1, 2, 3, 4, 5, 6, 7, 128, 255]),
        2 => journal[at + random.of(&[1, 2, 3])] = random.of(&[1, 2, 128, 255]),
        3 => set(journal, at + 4, 0),
        4 => {
            // the stamp of a neighbour, or one beside it
            let other = 16 * random.index(written);
            let stamp = get(journal, other + 8).wrapping_add(random.of(&[0, 0, 1, u32::MAX]));
            set(journal, at + 8, stamp);
        }
        5 => set(journal, at + 8, random.of(&[0, 1, u32::MAX])),
        6 => set(journal, at + 12, random.of(&[0, 1, 256, u32::MAX])),
        7 => journal[at..at + 16].fill(0),
        8 => journal.copy_within(at..at + 16, any),
        9 => put(journal, any / 16, (random.of(&[1, 2]), random.within(1, 9), random.any(), 0)),
        10 => journal[any + random.index(16)] ^= 1 << random.within(0, 7),
        11 => journal[any..any + 16].copy_from_slice(&[255, 0, 0, 0, 0, 0, 0, 0, 0, 0, 0, 0, 0, 0, 0, 0]),
        _ => {
            let len = journal.len() as u32;
            journal.resize(random.within(len - 40, len + 40) as usize, 0);
        }
    }
}
