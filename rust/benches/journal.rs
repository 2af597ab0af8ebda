//! The journal against the card, on slices of one length with the same entries, and against the second
//! implementation's journal.
//!
//! `cargo bench --bench journal` prints a table of medians, in nanoseconds a call. Each round times all three
//! on the same calls, one directly after the other, and the one that goes first changes from round to round.
//! `CARD_ROUNDS` is the number of rounds; a word after `--` picks the lines that have it.

#[path = "../tests/common/mod.rs"]
mod common;
mod timing;

use card_model::call::{Call, MODEL_JOURNAL};
use card_model::Answer;
use common::growth::Geometry;
use common::random::Random;
use common::{setting, LIBRARY, LIBRARY_JOURNAL};
use std::env;
use std::hint::black_box;
use std::time::Instant;
use timing::median;

/// Sectors of a bucket, and the buckets of a card that no line comes near to filling.
const SECTORS: u32 = 16;
const AMPLE: u32 = 4096;

/// Calls made at one go, since the clock itself takes some nanoseconds; so few posts that the number of
/// entries stays about what it was.
const LOOKS: usize = 256;
const POSTS: usize = 4;

/// So many accepted entries: every bib is posted about twice, one entry in twenty is a strike.
fn entries(many: u32, random: &mut Random) -> Vec<Call> {
    let mut card = card_of(AMPLE);
    let mut accepted = Vec::new();
    for at in 1.. {
        if accepted.len() == many as usize {
            break;
        }
        let bib = random.within(1, many.div_ceil(2));
        let strike = random.chance(5);
        let call =
            if strike { Call::Strike { bib, at } } else { Call::Post { bib, at, status: 0, time: at } };
        if call.run(&LIBRARY, &mut card).code == 0 {
            accepted.push(call);
        }
    }
    accepted
}

fn card_of(buckets: u32) -> Vec<u8> {
    let geometry = Geometry { buckets, sectors: SECTORS, td: 0, ti: 0 };
    let mut card = vec![0; geometry.length()];
    assert_eq!(geometry.format().run(&LIBRARY, &mut card).code, 0);
    card
}

/// A card and a journal of one length with the entries.
struct Slices {
    card: Vec<u8>,
    journal: Vec<u8>,
}

impl Slices {
    fn new(buckets: u32, entries: &[Call]) -> Slices {
        let mut card = card_of(buckets);
        let mut journal = vec![0; card.len()];
        for call in entries {
            assert_eq!(call.run(&LIBRARY, &mut card).code, 0, "{call:?}");
            assert_eq!(call.run_on_journal(&LIBRARY_JOURNAL, &mut journal).code, 0, "{call:?}");
        }
        Slices { card, journal }
    }
}

/// The buckets that the entries take on a card, and enough for a round's posts to rewrite.
fn just_enough(entries: &[Call]) -> u32 {
    let mut card = card_of(AMPLE);
    entries.iter().for_each(|call| assert_eq!(call.run(&LIBRARY, &mut card).code, 0));
    (LIBRARY.state)(&card).used + 3 * POSTS as u32
}

/// One of the three, and the nanoseconds a call took in each round.
struct Timed {
    run: fn(Call, &mut [u8]) -> Answer,
    slice: Vec<u8>,
    each: Vec<f64>,
}

impl Timed {
    fn new(slice: &[u8], run: fn(Call, &mut [u8]) -> Answer) -> Timed {
        Timed { run, slice: slice.to_vec(), each: Vec::new() }
    }

    /// Makes the calls on a copy, and gives their answers but for the reads.
    fn round(&mut self, copy: &mut [u8], calls: &[Call]) -> Vec<Answer> {
        copy.copy_from_slice(&self.slice);
        let mut answers = Vec::with_capacity(calls.len());
        let start = Instant::now();
        for &call in calls {
            answers.push((self.run)(black_box(call), black_box(copy)));
        }
        self.each.push(start.elapsed().as_nanos() as f64 / calls.len() as f64);
        answers.into_iter().map(|answer| Answer { reads: 0, ..answer }).collect()
    }

    fn median(&self) -> f64 {
        median(self.each.clone())
    }

    /// The median of how many times longer than the other it took, round by round.
    fn times(&self, other: &Timed) -> f64 {
        median(self.each.iter().zip(&other.each).map(|(one, other)| one / other).collect())
    }
}

/// All three, round by round; prints a line of the table.
fn compare(slices: &Slices, many: u32, what: &str, mut round: impl FnMut() -> Vec<Call>) {
    let mut ways = [
        Timed::new(&slices.card, |call, card| call.run(&LIBRARY, card)),
        Timed::new(&slices.journal, |call, journal| call.run_on_journal(&LIBRARY_JOURNAL, journal)),
        Timed::new(&slices.journal, |call, journal| call.run_on_journal(&MODEL_JOURNAL, journal)),
    ];
    let mut copy = vec![0; slices.card.len()];
    for turn in 0..setting("CARD_ROUNDS", 101) as usize {
        let calls = round();
        let mut first: Option<Vec<Answer>> = None;
        for i in 0..ways.len() {
            let answers = ways[(turn + i) % ways.len()].round(&mut copy, &calls);
            assert!(answers.iter().all(|answer| answer.code == 0), "{many} entries, {what}: {answers:?}");
            match &first {
                None => first = Some(answers),
                Some(first) => assert!(*first == answers, "{many} entries, {what}: two of them differ"),
            }
        }
    }
    let [card, journal, rust] = &ways;
    println!(
        "| {} | {many} | {what} | {:.0} | {:.0} | {:.2} | {:.0} | {:.2} |",
        copy.len(),
        card.median(),
        journal.median(),
        journal.times(card),
        rust.median(),
        journal.times(rust),
    );
}

/// Whether a line was asked for; `cargo bench` adds a flag of its own.
fn picked(what: &str) -> bool {
    let mut words = env::args().skip(1).filter(|word| !word.starts_with("--")).peekable();
    words.peek().is_none() || words.any(|word| what.contains(&word))
}

fn lines(slices: &Slices, entries: &[Call], many: u32, random: &mut Random) {
    let bibs = many.div_ceil(2);
    let Some(Call::Post { at: last, .. } | Call::Strike { at: last, .. }) = entries.last().copied() else {
        panic!("no line is of an empty slice");
    };
    if picked("look now") {
        compare(slices, many, "look now", || {
            (0..LOOKS).map(|_| Call::Look { bib: random.within(1, bibs), at: u32::MAX }).collect()
        });
    }
    if picked("post") {
        compare(slices, many, "post", || {
            let post =
                |i| Call::Post { bib: random.within(1, bibs), at: last + 1 + i, status: 0, time: 61_230 };
            (0..POSTS as u32).map(post).collect()
        });
    }
}

fn main() {
    let mut random = Random::new(7);
    println!(
        "| bytes | entries | call | card ns | journal ns | journal / card | Rust journal ns | \
         journal / Rust journal |"
    );
    println!("|---|---|---|---|---|---|---|---|");
    let counts = [10, 100, 1000, 3000].map(|many| (many, entries(many, &mut random)));
    // a slice that the entries just fit on, and then one that fits them all
    for (many, entries) in &counts {
        lines(&Slices::new(just_enough(entries), entries), entries, *many, &mut random);
    }
    let largest = just_enough(&counts[3].1);
    for (many, entries) in &counts[..3] {
        lines(&Slices::new(largest, entries), entries, *many, &mut random);
    }
}
