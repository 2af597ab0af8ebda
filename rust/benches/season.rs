//! Season copies by the library and by the second implementation, of the same cards in one run.
//!
//! `cargo bench --bench season` prints a table of medians, in microseconds a copy. Each round makes both
//! copies, one directly after the other, and the side that goes first changes from round to round.
//! `CARD_ROUNDS` is the number of rounds; a word after `--` picks the cards that have it in their name.

#[path = "../tests/common/mod.rs"]
mod common;
mod grown;
mod timing;

use card_model::call::{Calls, MODEL};
use common::growth::Geometry;
use common::{setting, LIBRARY};
use grown::Grown;
use std::env;
use std::hint::black_box;
use std::time::Instant;
use timing::median;

/// One side, the target it copies to, and the microseconds of each round.
struct Timed {
    side: Calls,
    target: Vec<u8>,
    each: Vec<f64>,
}

impl Timed {
    fn new(side: Calls, len: usize) -> Timed {
        Timed { side, target: vec![0; len], each: Vec::new() }
    }

    /// A copy of all that stands, to a target of the same geometry.
    fn round(&mut self, grown: &Grown) {
        let Geometry { buckets, sectors, td, ti } = grown.geometry;
        self.target.fill(0);
        let start = Instant::now();
        let (card, target) = (black_box(&grown.card), black_box(&mut self.target));
        let code = (self.side.season)(card, grown.stamp, target, buckets, sectors, td, ti);
        self.each.push(start.elapsed().as_nanos() as f64 / 1000.0);
        assert_eq!(code, 0);
    }
}

/// Both sides, round by round; prints a line of the table.
fn compare(name: &str, grown: &Grown) {
    let mut library = Timed::new(LIBRARY, grown.card.len());
    let mut model = Timed::new(MODEL, grown.card.len());
    for turn in 0..setting("CARD_ROUNDS", 101) {
        if turn % 2 == 0 {
            library.round(grown);
            model.round(grown);
        } else {
            model.round(grown);
            library.round(grown);
        }
        assert!(library.target == model.target, "{name}: the two sides differ");
    }
    let ratio = median(library.each.iter().zip(&model.each).map(|(one, other)| one / other).collect());
    let records = grown.bibs.len();
    println!("| {name} | {records} | {:.0} | {:.0} | {ratio:.1} |", median(library.each), median(model.each));
}

/// Whether a card was asked for; `cargo bench` adds a flag of its own.
fn picked(name: &str) -> bool {
    let mut words = env::args().skip(1).filter(|word| !word.starts_with("--")).peekable();
    words.peek().is_none() || words.any(|word| name.contains(&word))
}

fn main() {
    println!("| card | records | library season us | Rust season us | library / Rust |");
    println!("|---|---|---|---|---|");
    for (name, buckets, sectors) in [("64 KiB", 819, 4), ("largest", 4096, 32)] {
        if picked(name) {
            compare(name, &Grown::new(Geometry { buckets, sectors, td: 3 * sectors / 4, ti: 0 }));
        }
    }
}
