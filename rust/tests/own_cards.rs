//! Random calls on cards of our own making, in many geometries.

mod common;

use card_model::call::Call;
use common::growth::{Day, Geometry};
use common::pair::{Pair, Tally};
use common::random::Random;
use common::rounds;

/// A card from blank, its calls and a scroll at the end; gives the answers by number.
fn day(seed: u64, geometry: Geometry, most: u32, random: &mut Random) -> Tally {
    let mut pair = Pair::new(seed, vec![0; geometry.length()]);
    pair.call(Call::Look { bib: 1, at: 1 });
    pair.call(geometry.format());
    let mut day = Day::random(random);
    let mut full = 0;
    for _ in 0..most {
        let answer = pair.call(day.call(random));
        // a few calls more on a full card, and then another card
        full += u32::from(answer.code == 6);
        if full > 12 {
            break;
        }
    }
    scroll(&mut pair, u32::MAX);
    scroll(&mut pair, random.within(0, 400));
    pair.tally
}

/// Every record by rising bib, each asked for by itself too.
fn scroll(pair: &mut Pair, at: u32) {
    let mut bib = 0;
    loop {
        let answer = pair.call(Call::Next { bib, at });
        if answer.code != 0 || answer.bib == 0 {
            return;
        }
        bib = answer.bib;
        let look = pair.call(Call::Look { bib, at });
        assert_eq!((look.code, look.bib, look.at, look.time), (0, bib, answer.at, answer.time));
    }
}

#[test]
fn random_days_in_many_geometries() {
    rounds("own cards", 40, &[0, 1, 2, 3, 5, 6, 8, 14], |seed| {
        let mut random = Random::new(seed);
        let geometry = Geometry::random(&mut random);
        let most = if geometry.length() > 300_000 { 60 } else { random.of(&[40, 150, 600]) };
        day(seed, geometry, most, &mut random)
    });
}

/// Each number of sectors, with so few buckets that the card fills up.
#[test]
fn every_bucket_size_until_full() {
    for sectors in 4..=32 {
        for buckets in [2, 3, 5, 9, 14] {
            let seed = u64::from(1000 * sectors + buckets);
            let mut random = Random::new(seed);
            let geometry = Geometry::with(&mut random, buckets, sectors);
            day(seed, geometry, 400, &mut random);
        }
    }
}

/// The largest card there is, filled far enough for three index levels.
#[test]
fn the_largest_card() {
    let mut random = Random::new(77);
    let geometry = Geometry { buckets: 4096, sectors: 32, td: 2, ti: 4 };
    let mut pair = Pair::formatted(77, geometry);
    let mut deepest = 0;
    for at in 1..=2500 {
        let bib = random.within(1, 4000);
        assert_eq!(pair.call(Call::Post { bib, at, status: 0, time: at }).code, 0);
        if at % 50 == 0 {
            deepest = deepest.max(pair.call(Call::Look { bib, at: random.within(1, at) }).reads);
        }
    }
    assert!(deepest >= 3, "{deepest} reads");
}
