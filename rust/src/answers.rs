//! The answers to a batch, in the buffer that was lent for them.

use crate::refusal::refused;
use crate::Refusal;
use core::iter::FusedIterator;
use core::slice;

/// What each request of a [`crate::batch`] was answered, in their order.
#[derive(Clone, Debug)]
pub struct Answers<'a> {
    numbers: slice::Iter<'a, u8>,
}

impl<'a> Answers<'a> {
    /// A buffer in which a batch has put the number of each answer.
    pub(crate) fn of(answers: &'a [u8]) -> Answers<'a> {
        Answers { numbers: answers.iter() }
    }
}

fn told(number: &u8) -> Result<(), Refusal> {
    refused(u32::from(*number)).map_or(Ok(()), Err)
}

impl Iterator for Answers<'_> {
    type Item = Result<(), Refusal>;

    fn next(&mut self) -> Option<Self::Item> {
        self.numbers.next().map(told)
    }

    fn size_hint(&self) -> (usize, Option<usize>) {
        self.numbers.size_hint()
    }
}

impl DoubleEndedIterator for Answers<'_> {
    fn next_back(&mut self) -> Option<Self::Item> {
        self.numbers.next_back().map(told)
    }
}

impl ExactSizeIterator for Answers<'_> {}

impl FusedIterator for Answers<'_> {}
