//! As of every past stamp the card says what the plain list of accepted entries says, and what it
//! said itself at the time.

mod common;

use card_model::call::Call;
use card_model::list::{List, Said};
use card_model::Answer;
use common::growth::{Day, Geometry};
use common::listed::{self, against_the_list, asked};
use common::pair::Pair;
use common::random::Random;
use common::rounds;

/// Writes on a fresh card; gives the accepted entries, and the answers to some questions asked as
/// of the stamp just accepted.
fn grow(pair: &mut Pair, random: &mut Random, writes: u32) -> (List, Vec<(Call, Answer)>) {
    let mut day = Day::random(random);
    let (mut list, mut then) = (List::default(), Vec::new());
    for _ in 0..writes {
        let call = day.write(random);
        if pair.call(call).code != 0 {
            continue;
        }
        let entry = listed::said(call);
        let (bib, at) = (entry.bib, entry.at);
        list.push(entry);
        for question in [Call::Look { bib, at }, Call::Next { bib: bib - 1, at }, Call::Next { bib, at }] {
            let answer = pair.call(question);
            then.push((question, answer));
        }
    }
    (list, then)
}

#[test]
fn every_past_stamp() {
    rounds("past stamps", 25, &[0, 5, 6], |seed| {
        let mut random = Random::new(seed);
        let mut geometry = Geometry::random(&mut random);
        geometry.buckets = geometry.buckets.min(300);
        let mut pair = Pair::formatted(seed, geometry);
        let writes = random.of(&[20, 45, 90]);
        let (list, said) = grow(&mut pair, &mut random, writes);
        let (stamps, bibs) = asked(&list);
        for at in stamps {
            // every stamp, and of the bibs a dozen in turn
            let from = random.index(bibs.len());
            let some: Vec<u32> = bibs.iter().cycle().skip(from).take(bibs.len().min(12)).copied().collect();
            against_the_list(&mut pair, &list, at, &some);
        }
        for (question, then) in said {
            let now = pair.call(question);
            pair.expect(question, now, then, "the answer given at the time");
        }
        pair.tally
    });
}

/// Every stamp with every bib on one longer history.
#[test]
fn every_past_stamp_and_every_bib() {
    let mut random = Random::new(5);
    let geometry = Geometry { buckets: 400, sectors: 5, td: 3, ti: 4 };
    let mut pair = Pair::formatted(5, geometry);
    let mut list = List::default();
    for at in 1..=300 {
        let bib = 2 * random.within(1, 60);
        if random.chance(25) && pair.call(Call::Strike { bib, at }).code == 0 {
            list.push(Said { bib, at, result: None });
        } else {
            let (status, time) = if at % 5 == 0 { (random.within(1, 3), 0) } else { (0, 7 * at) };
            assert_eq!(pair.call(Call::Post { bib, at, status, time }).code, 0);
            list.push(Said { bib, at, result: Some((status, time)) });
        }
    }
    let (stamps, bibs) = asked(&list);
    for at in stamps {
        against_the_list(&mut pair, &list, at, &bibs);
    }
    assert!(pair.calls > 60_000, "{} calls", pair.calls);
}
