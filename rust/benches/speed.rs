//! The library's calls against the second implementation's, on the same cards in one run.
//!
//! `cargo bench --bench speed` prints a table of medians. Each round times both sides on the same
//! input, one directly after the other, and the side that goes first changes from round to round.
//! `CARD_ROUNDS` is the number of rounds; a word after `--` picks the lines that have it.

#[path = "../tests/common/mod.rs"]
mod common;
mod grown;
mod timing;

use card_model::call::{Call, Calls, MODEL};
use common::growth::Geometry;
use common::random::Random;
use common::{setting, LIBRARY};
use grown::Grown;
use std::env;
use std::hint::black_box;
use std::time::Instant;
use timing::median;

/// What one side did in a round: nanoseconds for a call, and a sum over its answers.
struct Took {
    each: f64,
    sum: u64,
}

/// Times `calls` on the card, all of them in one go.
fn timed(side: &Calls, card: &mut [u8], calls: &[Call]) -> Took {
    let start = Instant::now();
    let mut sum = 0u64;
    for &call in calls {
        let answer = black_box(call).run(side, black_box(card));
        let said = [answer.code, answer.bib, answer.at, answer.status, answer.time, answer.reads];
        sum = said.iter().fold(sum, |sum, &number| sum.wrapping_mul(31).wrapping_add(number.into()));
    }
    Took { each: start.elapsed().as_nanos() as f64 / calls.len() as f64, sum }
}

/// Whether a line was asked for; `cargo bench` adds a flag of its own.
fn picked(what: &str) -> bool {
    let mut words = env::args().skip(1).filter(|word| !word.starts_with("--")).peekable();
    words.peek().is_none() || words.any(|word| what.contains(&word))
}

/// Both sides, round by round, each on its own copy of the card; prints a line of the table.
fn compare(name: &str, what: &str, card: &[u8], mut round: impl FnMut() -> Vec<Call>) {
    if !picked(what) {
        return;
    }
    let rounds = setting("CARD_ROUNDS", 101);
    let (mut library, mut model) = (Vec::new(), Vec::new());
    let (mut one, mut other) = (card.to_vec(), card.to_vec());
    for turn in 0..rounds {
        let calls = round();
        one.copy_from_slice(card);
        other.copy_from_slice(card);
        let (a, b) = if turn % 2 == 0 {
            let first = timed(&LIBRARY, &mut one, &calls);
            (first, timed(&MODEL, &mut other, &calls))
        } else {
            let first = timed(&MODEL, &mut other, &calls);
            (timed(&LIBRARY, &mut one, &calls), first)
        };
        assert!(a.sum == b.sum && one == other, "{name}, {what}: the two sides differ");
        library.push(a.each);
        model.push(b.each);
    }
    let ratio = median(library.iter().zip(&model).map(|(a, b)| a / b).collect());
    println!("| {name} | {what} | {:.0} | {:.0} | {ratio:.2} |", median(library), median(model));
}

/// `many` calls, the i-th made by `call`.
fn several(many: usize, call: impl FnMut(usize) -> Call) -> Vec<Call> {
    (0..many).map(call).collect()
}

fn reads(name: &str, grown: &Grown, random: &mut Random, many: usize) {
    let bibs = &grown.bibs;
    compare(name, "look now", &grown.card, || {
        several(many, |_| Call::Look { bib: random.of(bibs), at: u32::MAX })
    });
    compare(name, "look as of a past stamp", &grown.card, || {
        several(many, |_| Call::Look { bib: random.of(bibs), at: random.within(1, grown.stamp) })
    });
    // the i-th step of a scroll asks from the bib that the step before it gave
    compare(name, "scroll by next", &grown.card, || {
        several(bibs.len() + 1, |i| Call::Next { bib: if i == 0 { 0 } else { bibs[i - 1] }, at: u32::MAX })
    });
}

fn writes(name: &str, grown: &Grown, random: &mut Random, many: usize) {
    let (bibs, last) = (&grown.bibs, grown.stamp);
    compare(name, "post", &grown.card, || {
        let bib = |random: &mut Random| random.of(bibs) + random.within(0, 1);
        several(many, |i| Call::Post { bib: bib(random), at: last + 1 + i as u32, status: 0, time: 61_230 })
    });
    compare(name, "strike", &grown.card, || {
        let from = random.index(bibs.len() - many);
        several(many, |i| Call::Strike { bib: bibs[from + i], at: last + 1 + i as u32 })
    });
    let blank = vec![0; grown.card.len()];
    compare(name, "format", &blank, || vec![grown.geometry.format()]);
}

fn main() {
    let mut random = Random::new(7);
    println!("| card | call | library ns | Rust ns | library / Rust |");
    println!("|---|---|---|---|---|");
    for (name, buckets, sectors, many) in [("64 KiB", 819, 4, 32), ("largest", 4096, 32, 4)] {
        let grown = Grown::new(Geometry { buckets, sectors, td: 3 * sectors / 4, ti: 0 });
        reads(name, &grown, &mut random, 16 * many);
        writes(name, &grown, &mut random, many);
    }
}
