//! The season card: what stands as of a stamp, on a blank second card; from any bytes, to any target.

mod common;

use card_model::call::{Call, MODEL};
use card_model::list::{List, Said};
use card_model::{Answer, State};
use common::batch::{self, blank_answers, requests, requests_of};
use common::bytes::{first_sector, get, put, put_head, set, Entry};
use common::growth::{Day, Geometry};
use common::listed::{against_the_list, asked, said};
use common::mutate::damage;
use common::pair::{Pair, Tally};
use common::random::Random;
use common::season::{compared, copy, needed, onto_blank, session, standing, Left};
use common::{deep, foreign, length, rounds, LIBRARY};

const NOW: u32 = u32::MAX;

fn shape(buckets: u32, sectors: u32) -> Geometry {
    Geometry { buckets, sectors, td: 0, ti: 0 }
}

/// A card of ours, and the writes that were accepted on it.
fn own(random: &mut Random, most_buckets: u32, writes: u32) -> (Vec<u8>, List) {
    let mut geometry = Geometry::random(random);
    geometry.buckets = geometry.buckets.min(most_buckets);
    let mut card = vec![0; geometry.length()];
    geometry.format().run(&MODEL, &mut card);
    let (mut day, mut list) = (Day::random(random), List::default());
    for _ in 0..writes {
        let call = day.write(random);
        if call.run(&MODEL, &mut card).code == 0 {
            list.push(said(call));
        }
    }
    (card, list)
}

/// A stamp of the card, one beside it, or an end of them all.
fn stamp(list: &List, random: &mut Random) -> u32 {
    if list.entries().is_empty() || random.chance(20) {
        return random.of(&[0, 1, NOW - 1, NOW]);
    }
    let at = list.entries()[random.index(list.entries().len())].at;
    at.saturating_add(random.of(&[0, 0, 1])).saturating_sub(random.of(&[0, 0, 1]))
}

// Cards reckoned by hand.

/// A card of four buckets of four sectors with these entries, by bucket and sector, and this beginning; its
/// TD is what 0 means.
fn four(begin: u32, root: u32, entries: &[(u32, usize, Entry)]) -> Vec<u8> {
    let mut card = vec![0; length(4, 4)];
    put_head(&mut card, 4, 4, 2, 4);
    set(&mut card, 8, begin);
    put(&mut card, 1, (4, 0, begin, root));
    for &(bucket, sector, entry) in entries {
        put(&mut card, first_sector(4, 4, bucket) + sector, entry);
    }
    card
}

/// Four sectors take three entries, whatever TD is. The dummy and four records go to two buckets, and a third has the index;
/// each record keeps its stamp.
#[test]
fn the_session_as_of_49() {
    let expected = four(
        49,
        3,
        &[
            (1, 0, (2, 0, 0, 0)),
            (1, 1, (1, 3, 20, 58900)),
            (1, 2, (1, 5, 40, 60000)),
            (2, 0, (1, 8, 10, 61230)),
            (2, 1, (1, 11, 30, 59990)),
            (3, 0, (3, 0, 49, 1)),
            (3, 1, (3, 8, 49, 2)),
        ],
    );
    let season = copy(&session(), 49, shape(4, 4));
    assert_eq!(season, expected);
    let state = State { code: 0, buckets: 4, sectors: 4, td: 2, ti: 4, begin: 49, last: 49, used: 3 };
    assert_eq!((LIBRARY.state)(&season), state);
}

/// As of 9 nothing stood: a data bucket with the dummy, and still an index bucket over it. As of 0 too, and
/// that is no formatted card, since its data comes first.
#[test]
fn nothing_stood() {
    for at in [9, 0] {
        let expected = four(at, 2, &[(1, 0, (2, 0, 0, 0)), (2, 0, (3, 0, at, 1))]);
        assert_eq!(copy(&session(), at, shape(4, 4)), expected);
    }
}

/// Ten entries in threes are four buckets, two over them and one over those: 7 in all, which two buckets fewer
/// or one do not have.
#[test]
fn two_index_levels() {
    let mut pair = Pair::formatted(1, shape(40, 8));
    for bib in 1..=9 {
        assert_eq!(pair.call(Call::Post { bib: 10 * bib, at: bib, status: 0, time: 7 }).code, 0);
    }
    let season = copy(pair.card(), 100, shape(7, 4));
    let key_and_bucket = |bucket: u32, sector: usize| {
        let from = 16 * (first_sector(7, 4, bucket) + sector);
        (season[from], get(&season, from + 4), get(&season, from + 8), get(&season, from + 12))
    };
    assert_eq!([0, 1, 2].map(|i| key_and_bucket(5, i)), [(3, 0, 100, 1), (3, 30, 100, 2), (3, 60, 100, 3)]);
    assert_eq!([0, 1].map(|i| key_and_bucket(6, i)), [(3, 90, 100, 4), (0, 0, 0, 0)]);
    assert_eq!([0, 1, 2].map(|i| key_and_bucket(7, i)), [(3, 0, 100, 5), (3, 90, 100, 6), (0, 0, 0, 0)]);
    assert_eq!((get(&season, 16), get(&season, 28), get(&season, 32)), (4, 7, 0));
    assert_eq!((LIBRARY.look)(&season, 90, 100).reads, 3);
    for buckets in 2..7 {
        assert_eq!(onto_blank(pair.card(), 100, shape(buckets, 4)).code, 6);
    }
}

/// The refusals in their order, each where all that come after it would be given too.
#[test]
fn refusals_in_order() {
    let six = shape(2, 4);
    let mut pair = Pair::new(0, copy(&session(), 49, shape(16, 4)));
    for (bib, at) in [(20, 60), (21, 61), (22, 62)] {
        assert_eq!(pair.call(Call::Post { bib, at, status: 0, time: 1 }).code, 0);
    }
    let sound = pair.card().to_vec();
    let mut damaged = sound.clone();
    let data = first_sector(16, 4, 2);
    damaged[16 * data + 1] = 1;
    let mut no_card = damaged.clone();
    no_card[0] = 5;
    let (blank, written) = (vec![0; length(2, 4)], vec![1; length(2, 4)]);
    let code = |card: &[u8], at, target: &[u8], geometry| compared(card, at, target, geometry).code;
    assert_eq!(code(&no_card, 48, &written[1..], six), 1);
    assert_eq!(code(&damaged, 48, &written[1..], six), 13);
    assert_eq!(code(&damaged, 49, &written[1..], six), 8);
    assert_eq!(code(&damaged, 49, &written, Geometry { td: 5, ..six }), 8);
    assert_eq!(code(&damaged, 49, &written, six), 9);
    assert_eq!(code(&damaged, 49, &blank, six), 4);
    assert_eq!(code(&sound, 49, &blank, six), 6);
    assert_eq!(code(&sound, 49, &vec![0; length(3, 4)], shape(3, 4)), 0);
}

/// As of the last stamp of all it can be made and asked, but not be written; as of the one before it, once.
#[test]
fn as_of_the_last_stamps() {
    for (at, left) in [(NOW, 0), (NOW - 1, 1)] {
        let mut pair = Pair::new(0, copy(&session(), at, shape(16, 4)));
        assert_eq!(pair.call(Call::Look { bib: 5, at: NOW }).code, 0);
        assert_eq!(pair.call(Call::Look { bib: 5, at: at - 1 }).code, 13);
        let codes =
            [NOW - 1, NOW, NOW].map(|at| pair.call(Call::Post { bib: 5, at, status: 0, time: 1 }).code);
        assert_eq!(codes.iter().filter(|&&code| code == 0).count(), left);
    }
}

// Targets.

/// Every byte of a target that is not zero is 9, and it stays.
#[test]
fn targets_that_are_not_blank() {
    let card = session();
    for place in 0..length(4, 4) {
        let mut target = vec![0; length(4, 4)];
        target[place] = 1 << (place % 8);
        assert_eq!(compared(&card, 49, &target, shape(4, 4)), Left { code: 9, target });
    }
}

/// Every length but the geometry's is 8, and so is a geometry off the limits.
#[test]
fn targets_of_other_lengths() {
    let card = session();
    for len in 0..=2 * length(4, 4) {
        let code = compared(&card, 49, &vec![0; len], shape(4, 4)).code;
        assert_eq!(code, if len == length(4, 4) { 0 } else { 8 }, "{len}");
    }
    for buckets in [0, 1, 2, 3, 4096, 4097, NOW] {
        for sectors in [0, 3, 4, 5, 32, 33, NOW] {
            let len = if buckets < NOW && sectors < NOW { length(buckets, sectors) } else { 336 };
            let thresholds: &[[u32; 2]] = match buckets {
                0..=3 => &[[0, 0], [1, 4], [2, 3], [2, 4], [sectors, sectors], [33, 4], [2, 33]],
                _ => &[[2, 4]],
            };
            for &[td, ti] in thresholds {
                let geometry = Geometry { buckets, sectors, td, ti };
                let code = compared(&card, 9, &vec![0; len], geometry).code;
                let formats = geometry.format().run(&LIBRARY, &mut vec![0; len]).code;
                assert_eq!(code, formats, "{geometry:?}");
            }
        }
    }
}

/// Every number of sectors, with too few buckets by one, just enough, and more; thresholds of any sort, which
/// the fill does not go by.
#[test]
fn to_every_bucket_size() {
    let mut refused = 0;
    for sectors in 4..=32 {
        for turn in 0..8 {
            let mut random = Random::new(u64::from(100 * sectors + turn));
            let writes = random.of(&[0, 3, 12, 60, 200]);
            let (card, list) = own(&mut random, 300, writes);
            let at = stamp(&list, &mut random);
            let least = needed(standing(&card, at).unwrap().len(), sectors);
            for buckets in [2, least - 1, least, least + 1, least + 40] {
                let geometry = Geometry::with(&mut random, buckets, sectors);
                let expected = match buckets {
                    0 | 1 => 8,
                    few if few < least => 6,
                    _ => 0,
                };
                refused += u32::from(expected == 6);
                assert_eq!(onto_blank(&card, at, geometry).code, expected, "{geometry:?}, {least} needed");
            }
        }
    }
    assert!(refused > 100, "{refused} targets were too small");
}

// Copies of copies.

/// Where nothing was accepted after t and up to u, a copy as of t copied again as of u is the copy as of u;
/// with u equal to t, copying twice is copying once.
#[test]
fn copying_twice_is_copying_once() {
    for seed in 1..=250 {
        let mut random = Random::new(seed);
        let (card, list) = own(&mut random, 200, 80);
        let t = stamp(&list, &mut random);
        let later = list.entries().iter().map(|said| said.at).find(|&at| at > t);
        let u = random.within(t, later.map_or(NOW, |at| at - 1));
        let (between, last) = (random.within(4, 32), random.within(4, 32));
        let between = Geometry::with(&mut random, 200, between);
        let last = Geometry::with(&mut random, 200, last);
        let first = copy(&card, t, between);
        for at in [t, u] {
            assert!(copy(&first, at, last) == copy(&card, at, last), "seed {seed}, {t}, then {at}");
        }
        // the same geometry again and again, from its own copies
        let again = copy(&copy(&first, u, between), u, between);
        assert!(again == copy(&card, u, between), "seed {seed}, thrice as of {u}");
        if let Some(early) = t.checked_sub(1) {
            assert_eq!(onto_blank(&first, early, last).code, 13, "seed {seed}");
        }
    }
}

// Calls after a copy.

/// The list that a season card begins with.
fn begun(card: &[u8], at: u32) -> List {
    let mut list = List::default();
    for (kind, bib, at, time) in standing(card, at).unwrap() {
        list.push(Said { bib, at, result: Some((u32::from(kind >> 8), time)) });
    }
    list
}

/// Writes after a copy, one by one or a batch at a time, the accepted ones added to the list. Gives the answers
/// to some questions asked as of the stamp just accepted.
fn season_day(pair: &mut Pair, random: &mut Random, list: &mut List, writes: u32) -> Vec<(Call, Answer)> {
    let (begin, before, mut then) = ((MODEL.state)(pair.card()).begin, pair.card().to_vec(), Vec::new());
    let mut day = Day::random(random).after(begin.saturating_sub(2));
    let calls: Vec<Call> = (0..writes).map(|_| day.write(random)).collect();
    for calls in calls.chunks(random.of(&[1, 5, 30])) {
        let requests = requests_of(calls);
        let left = batch::compared(pair.card(), &requests, &blank_answers(&requests));
        for (&call, &answer) in calls.iter().zip(&left.answers) {
            assert_eq!(pair.call(call).code, u32::from(answer), "{call:?}");
            if answer == 0 {
                let Said { bib, at, .. } = said(call);
                list.push(said(call));
                let asked = [Call::Look { bib, at }, Call::Next { bib: bib - 1, at }, Call::Next { bib, at }];
                then.extend(asked.map(|question| (question, pair.call(question))));
            }
        }
        assert!(pair.card() == left.card, "the batch and its calls leave the same");
    }
    let mut sectors = before.chunks(16).zip(pair.card().chunks(16));
    assert!(sectors.all(|(old, new)| old == [0; 16] || old == new), "nothing written is changed");
    then
}

/// As of every stamp from the beginning on a season card says what its records and the accepted entries say,
/// and before it 13. It says what it said at the time, reads included.
#[test]
fn every_past_stamp() {
    rounds("season cards", 30, &[0, 3, 5, 6, 13], |seed| {
        let mut random = Random::new(seed);
        let (card, list) = own(&mut random, 200, 60);
        let at = stamp(&list, &mut random);
        let sectors = random.within(4, 12);
        let least = needed(standing(&card, at).unwrap().len(), sectors);
        let room = random.of(&[0, 3, 60]);
        let geometry = Geometry::with(&mut random, least + room, sectors);
        let mut pair = Pair::new(seed, copy(&card, at, geometry));
        let mut list = begun(&card, at);
        let then = season_day(&mut pair, &mut random, &mut list, 50);
        let (mut stamps, bibs) = asked(&list);
        stamps.extend([at.saturating_sub(1), at]);
        for t in stamps {
            let from = random.index(bibs.len());
            let some: Vec<u32> = bibs.iter().cycle().skip(from).take(bibs.len().min(8)).copied().collect();
            if t < at {
                before_the_beginning(&mut pair, t, &some[..2]);
            } else {
                against_the_list(&mut pair, &list, t, &some);
            }
        }
        for (question, answer) in then {
            let now = pair.call(question);
            pair.expect(question, now, answer, "the answer given at the time");
        }
        pair.tally
    });
}

/// Every question as of a stamp is refused, and a buffer without room for a record does not help.
fn before_the_beginning(pair: &mut Pair, t: u32, bibs: &[u32]) {
    for &bib in bibs {
        assert_eq!(pair.call(Call::Next { bib, at: t }).code, 13);
        assert_eq!(pair.call(Call::Look { bib, at: t }).code, if bib == 0 { 2 } else { 13 });
        let mut page = [0x5a; 40];
        for room in [0, 15, 40] {
            let tally = card::numbers::records(pair.card(), bib, t, &mut page[..room]);
            assert_eq!((tally.code, tally.count, page), (13, 0, [0x5a; 40]));
        }
    }
}

/// A season's writes and then a copy as of any of its stamps, and so on: each copy says as of its beginning
/// what the card before it says.
#[test]
fn a_row_of_seasons() {
    for seed in 1..=40 {
        let mut random = Random::new(seed);
        let (mut card, mut list) = own(&mut random, 100, 40);
        let mut begin = 0;
        for _ in 0..5 {
            let at = stamp(&list, &mut random).max(begin);
            let sectors = random.within(4, 32);
            let season = copy(&card, at, Geometry::with(&mut random, 150, sectors));
            assert_eq!(standing(&season, at), standing(&card, at), "seed {seed}");
            list = begun(&card, at);
            let mut pair = Pair::new(seed, season);
            season_day(&mut pair, &mut random, &mut list, 25);
            (card, begin) = (pair.card().to_vec(), at);
        }
    }
}

// Cards not of our making.

/// A target, mostly one that suits, and its geometry.
fn target(random: &mut Random) -> (Vec<u8>, Geometry) {
    let mut geometry = Geometry::random(random);
    geometry.buckets = geometry.buckets.min(80);
    let mut target = vec![0; geometry.length()];
    match random.within(0, 19) {
        0 => target.truncate(random.index(geometry.length())),
        1 => target[random.index(geometry.length())] = 1,
        2 => geometry.ti = random.any(),
        _ => (),
    }
    (target, geometry)
}

/// A copy of any bytes as of any stamp, and if there is one, a copy of it.
fn any_copy(card: &[u8], random: &mut Random, tally: &mut Tally) {
    let begin = if card.len() < 12 { 0 } else { get(card, 8) };
    let at = match random.within(0, 3) {
        0 => NOW,
        1 => random.of(&[begin, begin.saturating_sub(1), begin.saturating_add(1)]),
        _ => random.within(0, 62),
    };
    let (target, geometry) = target(random);
    let left = compared(card, at, &target, geometry);
    tally[left.code as usize] += 1;
    if left.code == 0 {
        let u = random.within(at, NOW);
        let later = copy(&left.target, u, geometry);
        assert!(copy(&left.target, at, geometry) == left.target, "copying twice is copying once");
        assert!(copy(&later, u, geometry) == later, "copying twice is copying once, later");
    }
}

#[test]
fn of_foreign_cards() {
    rounds("seasons of foreign cards", 4, &[0, 1, 4, 6, 8, 9, 13], |seed| {
        let (mut random, mut tally) = (Random::new(seed), Tally::default());
        let mut card = foreign::card(&mut random);
        for _ in 0..random.of(&[0, 0, 1, 2]) {
            damage(&mut card, &mut random);
        }
        for _ in 0..4 {
            any_copy(&card, &mut random, &mut tally);
        }
        tally
    });
}

#[test]
fn of_cards_of_ours_with_bytes_changed() {
    rounds("seasons of changed cards", 3, &[0, 1, 4, 6, 8, 9, 13], |seed| {
        let (mut random, mut tally) = (Random::new(seed), Tally::default());
        let (mut card, _) = own(&mut random, 60, 80);
        for _ in 0..random.within(1, 3) {
            damage(&mut card, &mut random);
        }
        for _ in 0..4 {
            any_copy(&card, &mut random, &mut tally);
        }
        tally
    });
}

/// A data bucket may hold bibs that the index leads elsewhere for: next gives them, and walks on from them. The
/// records are what its steps give, and not what looks would find.
#[test]
fn bibs_beyond_their_bucket() {
    let index = [(1, 0, (3, 0, 0, 2)), (1, 1, (3, 10, 0, 3)), (1, 2, (3, 14, 0, 4))];
    let copied = |data: &[(u32, usize, Entry)]| {
        let card = four(0, 1, &[&index, data].concat());
        let season = copy(&card, 5, shape(4, 4));
        let bibs: Vec<u32> = standing(&season, 5).unwrap().iter().map(|record| record.1).collect();
        bibs
    };
    // from 15 the walk is to bucket 4, so that 10 and 20 in bucket 3 are not met
    let past_a_bucket = [
        (2, 0, (2, 0, 0, 0)),
        (2, 1, (1, 15, 1, 9)),
        (2, 2, (1, 5, 1, 8)),
        (3, 0, (1, 10, 2, 7)),
        (3, 1, (1, 20, 2, 6)),
        (4, 0, (1, 14, 3, 5)),
        (4, 1, (1, 30, 3, 4)),
    ];
    assert_eq!(copied(&past_a_bucket), [5, 15, 30]);
    // from 10, the key itself, it is to bucket 3, so that 12 is met there alone, where it is struck
    let at_the_key = [
        (2, 0, (2, 0, 0, 0)),
        (2, 1, (1, 10, 1, 9)),
        (2, 2, (1, 12, 1, 8)),
        (3, 0, (1, 10, 2, 7)),
        (3, 1, (2, 12, 2, 0)),
        (4, 0, (1, 14, 3, 5)),
    ];
    assert_eq!(copied(&at_the_key), [10, 14]);
}

/// Paths of many levels, as far as a card has buckets.
#[test]
fn of_deep_cards() {
    for levels in [1, 15, 16, 17, 33, 1300, 4095] {
        for keys in [false, true] {
            // of the keys 0, 10, .. only the first leads to a bucket with that header
            let written = if levels > 2000 { 1 } else { 4 };
            let code = if keys && written > 1 { 4 } else { 0 };
            let card = deep::card(levels, |_| written, keys);
            assert_eq!(onto_blank(&card, 60, shape(20, 4)).code, code, "{levels} levels");
        }
    }
}

// Large cards.

/// The largest card, most of it written, to the largest and to one of many levels.
#[test]
fn of_the_largest_card() {
    let mut random = Random::new(79);
    let mut card = vec![0; length(4096, 32)];
    shape(4096, 32).format().run(&MODEL, &mut card);
    let asked: Vec<Entry> = (1..=30_000).map(|at| (1, random.within(1, 20_000), at, at)).collect();
    let mut answers = vec![0x5a; asked.len()];
    assert_eq!((MODEL.batch)(&mut card, &requests(&asked), &mut answers), 0);
    assert!(answers.iter().all(|&answer| answer == 0));
    let records = standing(&card, NOW).unwrap().len();
    assert!(records > 15_000, "{records} records");
    let season = copy(&card, 30_000, shape(4096, 32));
    assert_eq!((LIBRARY.state)(&season).used, needed(records, 32));
    // the first half of it, to buckets of three entries
    let tall = copy(&card, 6_000, shape(4096, 4));
    assert!((LIBRARY.look)(&tall, 1, NOW).reads >= 8);
}
