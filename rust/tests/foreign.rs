//! Cards not of our making: foreign ones, sound or not, and our own with bytes changed.

mod common;

use card_model::call::{Call, MODEL};
use common::bytes::{get, pick};
use common::growth::{no_result, result, Day, Geometry};
use common::mutate::damage;
use common::pair::Pair;
use common::random::Random;
use common::{foreign, rounds};

/// A bib that the card speaks of, or one beside it.
fn bib(card: &[u8], random: &mut Random) -> u32 {
    if card.len() < 32 || random.chance(10) {
        return random.any();
    }
    let key = get(card, 16 * pick(card, random, true) + 4);
    match key.wrapping_add(random.of(&[0, 0, 0, 1, u32::MAX])) {
        0 if random.chance(80) => random.within(1, 30),
        bib => bib,
    }
}

/// A stamp for a write: above what most cards here hold, and rarely one that is not.
fn stamp(random: &mut Random, turn: u32) -> u32 {
    match random.within(0, 19) {
        0 => random.any(),
        1 => random.within(0, 62),
        _ => (1 << 30) + turn,
    }
}

fn calls(pair: &mut Pair, random: &mut Random, turns: u32) {
    for turn in 0..turns {
        let bib = bib(pair.card(), random);
        let asked = if random.chance(50) { u32::MAX } else { random.within(0, 62) };
        let call = match random.within(0, 9) {
            0..=3 => {
                let (status, time) = if random.chance(5) { no_result(random) } else { result(random) };
                Call::Post { bib, at: stamp(random, turn), status, time }
            }
            4 | 5 => Call::Strike { bib, at: stamp(random, turn) },
            6 | 7 => Call::Look { bib, at: asked },
            _ => Call::Next { bib, at: asked },
        };
        pair.call(call);
    }
}

#[test]
fn foreign_cards() {
    rounds("foreign cards", 25, &[0, 1, 2, 3, 4, 5, 6, 13, 14], |seed| {
        let mut random = Random::new(seed);
        let mut card = foreign::card(&mut random);
        for _ in 0..random.of(&[0, 0, 1, 2]) {
            damage(&mut card, &mut random);
        }
        let mut pair = Pair::new(seed, card);
        calls(&mut pair, &mut random, 30);
        pair.tally
    });
}

#[test]
fn our_own_with_bytes_changed() {
    rounds("changed cards", 15, &[0, 1, 2, 3, 4, 5, 6, 13, 14], |seed| {
        let mut random = Random::new(seed);
        let mut geometry = Geometry::random(&mut random);
        geometry.buckets = geometry.buckets.min(150);
        let mut card = vec![0; geometry.length()];
        geometry.format().run(&MODEL, &mut card);
        let mut day = Day::random(&mut random);
        for _ in 0..random.of(&[5, 40, 200]) {
            day.write(&mut random).run(&MODEL, &mut card);
        }
        for _ in 0..random.within(1, 3) {
            damage(&mut card, &mut random);
        }
        let mut pair = Pair::new(seed, card);
        calls(&mut pair, &mut random, 25);
        pair.tally
    });
}
