//! The history of one bib on the largest card, in the library and in the second implementation.
//!
//! `cargo bench --bench history` prints a table of medians, in microseconds a call. Each round times both sides,
//! one directly after the other, and the side that goes first changes from round to round. `CARD_ROUNDS` is the
//! number of rounds.

#[path = "../tests/common/mod.rs"]
mod common;
mod timing;

use card_model::call::{Calls, MODEL};
use common::growth::Geometry;
use common::random::Random;
use common::{setting, LIBRARY};
use std::hint::black_box;
use std::time::Instant;
use timing::median;

const BUCKETS: u32 = 4096;

/// The bib of which the history is asked, apart from all others.
const BIB: u32 = 50_000;

/// The largest card with so many entries of the bib among those of others, until half its buckets are used.
fn grown(many: u32) -> Vec<u8> {
    let geometry = Geometry { buckets: BUCKETS, sectors: 32, td: 24, ti: 0 };
    let (mut card, mut random) = (vec![0; geometry.length()], Random::new(2024));
    geometry.format().run(&MODEL, &mut card);
    let others = until_half(&mut card, &mut random, many);
    // the same day once more, the bib's entries spread over it
    card.fill(0);
    geometry.format().run(&MODEL, &mut card);
    let mut random = Random::new(2024);
    let mut said = 0;
    for at in 1..=others {
        if u64::from(said) * u64::from(others) < u64::from(at) * u64::from(many) {
            said += 1;
            assert_eq!((MODEL.post)(&mut card, BIB, 2 * at, 0, at).code, 0);
        }
        assert_eq!((MODEL.post)(&mut card, random.within(1, 13_000), 2 * at + 1, 0, at).code, 0);
    }
    assert_eq!(said, many);
    card
}

/// How many posts of others half a card takes beside so many of the bib.
fn until_half(card: &mut [u8], random: &mut Random, many: u32) -> u32 {
    for at in 1.. {
        assert_eq!((MODEL.post)(card, random.within(1, 13_000), at, 0, at).code, 0);
        if at.is_multiple_of(1000) && (MODEL.state)(card).used > BUCKETS / 2 - many / 16 {
            return at;
        }
    }
    unreachable!("a card has an end")
}

/// Microseconds for one history.
fn timed(side: &Calls, card: &[u8], out: &mut [u8], many: usize) -> f64 {
    let start = Instant::now();
    let tally = (side.history)(black_box(card), BIB, u32::MAX, black_box(out));
    let took = start.elapsed().as_nanos() as f64 / 1000.0;
    assert_eq!((tally.code, tally.count), (0, many));
    took
}

fn main() {
    println!("| entries | buckets used | library us | Rust us | library / Rust |");
    println!("|---|---|---|---|---|");
    for many in [1, 30, 1000] {
        let card = grown(many as u32);
        let (mut one, mut other) = (vec![0; 16 * many], vec![0; 16 * many]);
        let (mut library, mut model) = (Vec::new(), Vec::new());
        for turn in 0..setting("CARD_ROUNDS", 51) {
            if turn % 2 == 0 {
                library.push(timed(&LIBRARY, &card, &mut one, many));
                model.push(timed(&MODEL, &card, &mut other, many));
            } else {
                model.push(timed(&MODEL, &card, &mut other, many));
                library.push(timed(&LIBRARY, &card, &mut one, many));
            }
            assert!(one == other, "{many}: the two sides differ");
        }
        let ratio = median(library.iter().zip(&model).map(|(a, b)| a / b).collect());
        let used = (MODEL.state)(&card).used;
        println!("| {many} | {used} | {:.0} | {:.0} | {ratio:.2} |", median(library), median(model));
    }
}
