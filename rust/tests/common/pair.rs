//! One card under the library and under the model, every answer and every byte compared. The library is
//! asked by its numbers and through the safe functions.

use super::growth::Geometry;
use super::guarded::Guarded;
use super::wrapper::WRAPPER;
use super::LIBRARY;
use card_model::call::{Call, MODEL};
use card_model::Answer;

/// How often each answer number, from 0 to 15, was given.
pub type Tally = [u64; 16];

pub fn is_question(call: Call) -> bool {
    matches!(call, Call::Look { .. } | Call::Next { .. })
}

pub struct Pair {
    seed: u64,
    lent: Guarded,
    own: Vec<u8>,
    pub calls: u64,
    pub tally: Tally,
}

impl Pair {
    pub fn new(seed: u64, card: Vec<u8>) -> Pair {
        Pair {
            seed,
            lent: Guarded::new(&card, seed as usize % 16),
            own: card,
            calls: 0,
            tally: Tally::default(),
        }
    }

    /// A blank card on either side, formatted.
    pub fn formatted(seed: u64, geometry: Geometry) -> Pair {
        let mut pair = Pair::new(seed, vec![0; geometry.length()]);
        pair.call(geometry.format());
        pair
    }

    pub fn card(&self) -> &[u8] {
        &self.own
    }

    /// Makes a call on both and gives the answer, which has to be one.
    pub fn call(&mut self, call: Call) -> Answer {
        self.calls += 1;
        let expected = call.run(&MODEL, &mut self.own);
        let answer = self.asked(call);
        if answer != expected {
            self.differs(call, &format!("library {answer:?}, model {expected:?}"));
        }
        if self.lent.card() != self.own {
            let place = (0..self.own.len()).find(|&i| self.lent.card()[i] != self.own[i]).unwrap();
            self.differs(call, &format!("answer {answer:?}, first other byte at {place}"));
        }
        if !self.lent.whole() {
            self.differs(call, "a byte outside the card was written");
        }
        if !is_question(call) {
            self.compare_states(call);
        }
        self.tally[answer.code as usize] += 1;
        answer
    }

    /// What the card says of itself after a write, accepted or refused.
    fn compare_states(&self, call: Call) {
        let expected = (MODEL.state)(&self.own);
        for side in [LIBRARY, WRAPPER] {
            let state = (side.state)(self.lent.card());
            if state != expected {
                self.differs(call, &format!("library {state:?}, model {expected:?}"));
            }
        }
    }

    /// The library's answer. A question is put both ways; a write, which can be made but once, by the numbers
    /// and by the safe functions in turn.
    fn asked(&mut self, call: Call) -> Answer {
        let by_turns = if self.calls.is_multiple_of(2) { LIBRARY } else { WRAPPER };
        let answer = call.run(&by_turns, self.lent.card_mut());
        if is_question(call) {
            for side in [LIBRARY, WRAPPER] {
                let again = call.run(&side, self.lent.card_mut());
                if again != answer {
                    self.differs(call, &format!("{answer:?}, and asked again {again:?}"));
                }
            }
        }
        answer
    }

    fn differs(&self, call: Call, what: &str) -> ! {
        panic!("CARD_SEED={}: call {} of the round, {call:?}: {what}", self.seed, self.calls)
    }

    /// Fails with the seed where an answer is not as expected.
    pub fn expect(&self, call: Call, answer: Answer, expected: Answer, whose: &str) {
        if answer != expected {
            self.differs(call, &format!("library {answer:?}, {whose} {expected:?}"));
        }
    }
}
