//! Batches against the same requests one call at a time, in the library and in the second implementation.
//!
//! `cargo bench --bench batch` prints a table of medians, in nanoseconds a request. Each round times all
//! four ways on the same requests, one directly after the other, and the one that goes first changes from
//! round to round. `CARD_ROUNDS` is the number of rounds of the short batches; a word after `--` picks the
//! cards that have it in their name.

#[path = "../tests/common/mod.rs"]
mod common;
mod grown;
mod timing;

use card_model::call::{Calls, MODEL};
use common::bytes::{get, put};
use common::growth::Geometry;
use common::random::Random;
use common::{setting, LIBRARY};
use grown::Grown;
use std::env;
use std::hint::black_box;
use std::time::Instant;
use timing::median;

/// Short batches are timed several at a time, since the clock itself takes some nanoseconds.
const AT_LEAST: usize = 16;

/// How a round's requests are brought to the card.
#[derive(Clone, Copy)]
enum Way {
    /// Batches of so many requests.
    Batches(usize),
    Posts,
}

impl Way {
    fn run(self, side: &Calls, card: &mut [u8], requests: &[u8], answers: &mut [u8]) {
        match self {
            Way::Batches(size) => {
                for (requests, answers) in requests.chunks(16 * size).zip(answers.chunks_mut(size)) {
                    assert_eq!((side.batch)(black_box(card), black_box(requests), answers), 0);
                }
            }
            Way::Posts => {
                for (request, answer) in requests.chunks(16).zip(answers) {
                    let [bib, at, time] = [4, 8, 12].map(|from| get(request, from));
                    *answer = (side.post)(black_box(card), bib, at, 0, time).code as u8;
                }
            }
        }
    }
}

/// One of the four ways, and the nanoseconds a request took in each round.
struct Timed {
    side: Calls,
    way: Way,
    each: Vec<f64>,
}

impl Timed {
    fn new(side: Calls, way: Way) -> Timed {
        Timed { side, way, each: Vec::new() }
    }

    /// Brings the requests to the card, and gives their answers.
    fn round(&mut self, card: &mut [u8], requests: &[u8]) -> Vec<u8> {
        let mut answers = vec![0xff; requests.len() / 16];
        let start = Instant::now();
        self.way.run(&self.side, card, requests, &mut answers);
        self.each.push(start.elapsed().as_nanos() as f64 / answers.len() as f64);
        answers
    }

    fn median(&self) -> f64 {
        median(self.each.clone())
    }

    /// The median of how many times longer than the other it took, round by round.
    fn times(&self, other: &Timed) -> f64 {
        median(self.each.iter().zip(&other.each).map(|(one, other)| one / other).collect())
    }
}

/// Posts of bibs that stand and of bibs beside them, as a heat sheet would bring them.
fn requests(grown: &Grown, random: &mut Random, many: usize) -> Vec<u8> {
    let mut requests = vec![0; 16 * many];
    for i in 0..many {
        let bib = random.of(&grown.bibs) + random.within(0, 1);
        put(&mut requests, i, (1, bib, grown.stamp + 1 + i as u32, 61_230));
    }
    requests
}

/// All four ways, round by round, each on the card as it was grown; prints a line of the table.
fn compare(name: &str, grown: &Grown, random: &mut Random, size: usize) {
    let many = size.max(AT_LEAST);
    // a round of 1,600 single posts on the largest card takes a third of a second
    let rounds = setting("CARD_ROUNDS", 101) / if size > 256 { 5 } else { 1 };
    let mut ways = [
        Timed::new(LIBRARY, Way::Batches(size)),
        Timed::new(LIBRARY, Way::Posts),
        Timed::new(MODEL, Way::Posts),
        Timed::new(MODEL, Way::Batches(size)),
    ];
    let mut card = grown.card.clone();
    let mut accepted = Vec::new();
    for turn in 0..rounds as usize {
        let requests = requests(grown, random, many);
        let mut left: Option<(Vec<u8>, Vec<u8>)> = None;
        for i in 0..ways.len() {
            card.copy_from_slice(&grown.card);
            let answers = ways[(turn + i) % ways.len()].round(&mut card, &requests);
            match &left {
                None => left = Some((answers, card.clone())),
                Some(first) => assert!(*first == (answers, card.clone()), "{name}, {size}: two ways differ"),
            }
        }
        let (answers, _) = left.expect("each round has four ways");
        accepted.push(answers.iter().filter(|&&answer| answer == 0).count() as f64 / answers.len() as f64);
    }
    let [batch, posts, rust_posts, rust_batch] = &ways;
    println!(
        "| {name} | {size} | {:.0}% | {:.0} | {:.0} | {:.0} | {:.0} | {:.2} | {:.2} | {:.2} |",
        100.0 * median(accepted),
        batch.median(),
        posts.median(),
        rust_posts.median(),
        rust_batch.median(),
        posts.times(batch),
        rust_posts.times(batch),
        batch.times(rust_batch),
    );
}

/// Whether a card was asked for; `cargo bench` adds a flag of its own.
fn picked(name: &str) -> bool {
    let mut words = env::args().skip(1).filter(|word| !word.starts_with("--")).peekable();
    words.peek().is_none() || words.any(|word| name.contains(&word))
}

fn main() {
    let mut random = Random::new(7);
    println!(
        "| card | requests | accepted | library batch ns | library posts ns | Rust posts ns | Rust batch ns | \
         library posts / batch | Rust posts / library batch | library batch / Rust batch |"
    );
    println!("|---|---|---|---|---|---|---|---|---|---|");
    for (name, buckets, sectors) in [("64 KiB", 819, 4), ("largest", 4096, 32)] {
        if picked(name) {
            let grown = Grown::new(Geometry { buckets, sectors, td: 3 * sectors / 4, ti: 0 });
            for size in [1, 16, 256, 1600] {
                compare(name, &grown, &mut random, size);
            }
        }
    }
}
