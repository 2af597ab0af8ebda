//! The plain reading: accepted entries in the order they came, read through for each question.

use crate::answer::Answer;

#[derive(Clone, Copy, Debug)]
pub struct Said {
    pub bib: u32,
    pub at: u32,
    /// Status and time of a post; a strike has none.
    pub result: Option<(u32, u32)>,
}

#[derive(Clone, Debug, Default)]
pub struct List(Vec<Said>);

impl List {
    pub fn push(&mut self, said: Said) {
        self.0.push(said);
    }

    pub fn entries(&self) -> &[Said] {
        &self.0
    }

    /// The last entry of `bib` stamped `at` or earlier decides. Reads are the card's own matter: 0.
    pub fn look(&self, bib: u32, at: u32) -> Answer {
        let last = self.0.iter().rfind(|said| said.bib == bib && said.at <= at);
        match last {
            Some(Said { at, result: Some((status, time)), .. }) => {
                Answer { bib, at: *at, status: *status, time: *time, ..Answer::ACCEPTED }
            }
            _ => Answer { bib, ..Answer::ACCEPTED },
        }
    }

    /// The smallest bib above `bib` that stands as of `at`, or the end.
    pub fn next(&self, bib: u32, at: u32) -> Answer {
        let mut bibs: Vec<u32> = self.0.iter().map(|said| said.bib).filter(|&other| other > bib).collect();
        bibs.sort_unstable();
        bibs.dedup();
        bibs.into_iter().map(|other| self.look(other, at)).find(|answer| answer.at != 0).unwrap_or_default()
    }
}
