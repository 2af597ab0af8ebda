//! What the comparisons share: seeded numbers, guarded buffers, and a card under both
//! implementations at once.
#![allow(dead_code)] // each test takes what it wants of this

pub mod batch;
pub mod bytes;
pub mod deep;
pub mod foreign;
pub mod growth;
pub mod guarded;
pub mod history;
pub mod journal;
pub mod listed;
pub mod mutate;
pub mod pair;
pub mod random;
pub mod season;
pub mod stack;
pub mod wrapper;

use card_model::call::{Calls, JournalCalls};
use card_model::{Answer, Digits, State};
use pair::Tally;
use std::env;

/// The proved library's calls.
pub const LIBRARY: Calls = Calls {
    format: |card, buckets, sectors, td, ti| answer(card::numbers::format(card, buckets, sectors, td, ti)),
    post: |card, bib, at, status, time| answer(card::numbers::post(card, bib, at, status, time)),
    strike: |card, bib, at| answer(card::numbers::strike(card, bib, at)),
    batch: card::numbers::batch,
    look: |card, bib, at| answer(card::numbers::look(card, bib, at)),
    next: |card, bib, at| answer(card::numbers::next(card, bib, at)),
    season: card::numbers::season,
    history: |card, bib, at, out| {
        let card::numbers::Tally { code, count } = card::numbers::history(card, bib, at, out);
        card_model::Tally { code, count }
    },
    state: |card| {
        let card::numbers::State { code, buckets, sectors, td, ti, begin, last, used } =
            card::numbers::state(card);
        State { code, buckets, sectors, td, ti, begin, last, used }
    },
    digits: |time, field| {
        let card::numbers::Digits { code, places } = card::numbers::digits(time, field);
        Digits { code, places }
    },
};

/// The proved library's calls on a journal.
pub const LIBRARY_JOURNAL: JournalCalls = JournalCalls {
    post: |journal, bib, at, status, time| {
        answer(card::numbers::journal_post(journal, bib, at, status, time))
    },
    strike: |journal, bib, at| answer(card::numbers::journal_strike(journal, bib, at)),
    look: |journal, bib, at| answer(card::numbers::journal_look(journal, bib, at)),
    next: |journal, bib, at| answer(card::numbers::journal_next(journal, bib, at)),
};

fn answer(a: card::numbers::Answer) -> Answer {
    Answer { code: a.code, bib: a.bib, at: a.at, status: a.status, time: a.time, reads: a.reads }
}

/// The length of a card.
pub fn length(buckets: u32, sectors: u32) -> usize {
    16 * (1 + buckets as usize * (sectors as usize + 1))
}

/// Runs `round` with seeds one after another until the calls made reach this test's share, in
/// hundredths, of `CARD_CALLS`. `CARD_SEED` is the first seed: with a seed that a difference
/// printed, that round comes first. Every number of `wanted` has to be answered at least once.
pub fn rounds(name: &str, share: u64, wanted: &[usize], mut round: impl FnMut(u64) -> Tally) {
    let (most, first) = (setting("CARD_CALLS", 400_000) * share / 100, setting("CARD_SEED", 1));
    let (mut seed, mut tally) = (first, Tally::default());
    while tally.iter().sum::<u64>() < most {
        for (sum, given) in tally.iter_mut().zip(round(seed)) {
            *sum += given;
        }
        seed += 1;
    }
    println!("{name}: {} calls, seeds {first} to {}", tally.iter().sum::<u64>(), seed - 1);
    println!("{name}: answers by number, from 0: {tally:?}");
    for &number in wanted {
        assert!(tally[number] > 0 || most < 10_000, "{name}: no call was answered {number}");
    }
}

/// A number from the environment, or the usual one.
pub fn setting(variable: &str, usual: u64) -> u64 {
    match env::var(variable) {
        Ok(said) => said.parse().unwrap_or_else(|_| panic!("{variable} is not a number")),
        Err(_) => usual,
    }
}
