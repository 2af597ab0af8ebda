//! Everything ever said of one bib: by hand, against what was accepted on cards of ours, and on any bytes.

mod common;

use card::{Entry, Record, Refusal, Status};
use card_model::call::{Call, MODEL};
use card_model::list::{List, Said};
use card_model::Tally;
use common::bytes::{first_sector, get, post_of, put, put_head, set, Entry as Sector};
use common::growth::{Day, Geometry};
use common::history::{buffer, compared};
use common::listed::{asked, said};
use common::mutate::damage;
use common::pair::{self, Pair};
use common::random::Random;
use common::{foreign, length, rounds, season};

const NOW: u32 = u32::MAX;

/// The entries as sectors, one behind the other.
fn sectors(entries: &[Sector]) -> Vec<u8> {
    let mut bytes = vec![0; 16 * entries.len()];
    entries.iter().enumerate().for_each(|(i, &entry)| put(&mut bytes, i, entry));
    bytes
}

/// The history, which has to be accepted with room to spare; behind it the buffer stays.
fn history(card: &[u8], bib: u32, at: u32) -> Vec<u8> {
    let left = compared(card, bib, at, &buffer(80));
    assert_eq!(left.tally.code, 0, "{bib} as of {at}");
    left.out[..16 * left.tally.count].to_vec()
}

fn code(card: &[u8], bib: u32, at: u32, room: usize) -> u32 {
    compared(card, bib, at, &vec![0x5a; room]).tally.code
}

// By hand.

/// Bib 11 is corrected and struck through rewritings, which drop its old entries and copy the last: the old ones
/// stay where they were, and the copy is no entry more.
fn evening() -> Vec<u8> {
    let mut pair = Pair::formatted(1, Geometry { buckets: 16, sectors: 4, td: 3, ti: 4 });
    for call in [
        Call::Post { bib: 8, at: 10, status: 0, time: 61230 },
        Call::Post { bib: 11, at: 20, status: 0, time: 59990 },
        Call::Post { bib: 11, at: 30, status: 0, time: 59980 },
        Call::Strike { bib: 11, at: 40 },
        Call::Post { bib: 8, at: 50, status: 2, time: 0 },
        Call::Post { bib: 11, at: 60, status: 1, time: 0 },
        Call::Post { bib: 11, at: 70, status: 0, time: 59970 },
        Call::Post { bib: 12, at: 80, status: 0, time: 62000 },
        Call::Post { bib: 12, at: 90, status: 0, time: 61990 },
    ] {
        assert_eq!(pair.call(call).code, 0, "{call:?}");
    }
    pair.card().to_vec()
}

#[test]
fn one_evening() {
    let card = evening();
    let eleven =
        [(1, 11, 20, 59990), (1, 11, 30, 59980), (2, 11, 40, 0), (post_of(1), 11, 60, 0), (1, 11, 70, 59970)];
    for (at, many) in
        [(0, 0), (19, 0), (20, 1), (39, 2), (40, 3), (59, 3), (60, 4), (69, 4), (70, 5), (NOW, 5)]
    {
        assert_eq!(history(&card, 11, at), sectors(&eleven[..many]), "as of {at}");
    }
    assert_eq!(history(&card, 8, NOW), sectors(&[(1, 8, 10, 61230), (post_of(2), 8, 50, 0)]));
    // five entries in six sectors: the post at 70 stands in the bucket that was full, and copied in the next
    let copies = card.chunks(16).skip(17).filter(|s| s[0] != 3 && get(s, 4) == 11).count();
    assert_eq!(copies, 6);
    for bib in [1, 7, 9, 10, 13, NOW] {
        assert_eq!(history(&card, bib, NOW), []);
    }
}

#[test]
fn in_rust_types() {
    let (card, mut page) = (evening(), [0; 16 * 5]);
    let mut said = card::history(&card, 11, 69, &mut page).unwrap();
    let record = |at, status, time| Entry::Post(Record { bib: 11, at, status, time });
    assert_eq!((said.len(), said.next_back()), (4, Some(record(60, Status::DidNotFinish, None))));
    let rest: Vec<Entry> = said.by_ref().collect();
    let strike = Entry::Strike { bib: 11, at: 40 };
    assert_eq!(
        rest,
        [record(20, Status::Timed, Some(59990)), record(30, Status::Timed, Some(59980)), strike]
    );
    assert_eq!((said.next(), said.next_back(), strike.at(), rest[0].at()), (None, None, 40, 20));
    assert_eq!(card::history(&card, 11, NOW, &mut page[..79]).map(drop), Err(Refusal::NoRoom));
}

/// Buffers of every length around the need: 15 below it, and beyond it the bytes stay.
#[test]
fn every_buffer() {
    let card = evening();
    for (bib, at, many) in [(11, NOW, 5), (11, 40, 3), (8, NOW, 2), (9, NOW, 0)] {
        for room in 0..16 * (many + 2) + 5 {
            let left = compared(&card, bib, at, &vec![0x5a; room]);
            let expected = if room / 16 < many { (15, 0) } else { (0, many) };
            assert_eq!((left.tally.code, left.tally.count), expected, "{room} bytes for {many}");
            let stays = 16 * left.tally.count;
            assert!(left.out[stays..].iter().all(|&byte| byte == 0x5a), "{room} bytes for {many}");
        }
    }
}

/// 1, 2, 13, 4, 15: each where all that come after it would be given too.
#[test]
fn refusals_in_order() {
    let mut card = evening();
    set(&mut card, 8, 50);
    let sound = card.clone();
    put(&mut card, first_sector(16, 4, 16), (7, 0, 0, 0));
    let mut no_card = card.clone();
    no_card[0] = 5;
    assert_eq!(code(&no_card, 0, 49, 0), 1);
    assert_eq!(code(&card, 0, 49, 0), 2);
    assert_eq!(code(&card, 11, 49, 0), 13);
    assert_eq!(code(&card, 11, 50, 0), 4);
    assert_eq!(code(&sound, 11, 50, 0), 15);
    assert_eq!(code(&sound, 11, 50, 48), 0);
    // a beginning is no stamp from which entries count
    assert_eq!(history(&sound, 11, 50).len(), 48);
}

/// A card of eight buckets of four sectors, all as given; no path leads anywhere.
fn made(entries: &[(u32, u32, Sector)]) -> Vec<u8> {
    let mut card = vec![0; length(8, 4)];
    put_head(&mut card, 8, 4, 3, 4);
    for &(bucket, sector, entry) in entries {
        put(&mut card, first_sector(8, 4, bucket) + sector as usize, entry);
    }
    card
}

/// The lowest bucket's first entry of a stamp is given, whichever it is; two stamps are two entries.
#[test]
fn one_stamp_twice() {
    let card = made(&[
        (6, 0, (1, 5, 20, 600)),
        (3, 2, (2, 5, 10, 0)),
        (3, 1, (1, 5, 10, 301)),
        (3, 3, (1, 5, 20, 303)),
        (7, 0, (1, 5, 10, 700)),
        (2, 0, (1, 6, 10, 200)),
        (7, 1, (1, 5, 5, 701)),
    ]);
    assert_eq!(history(&card, 5, NOW), sectors(&[(1, 5, 5, 701), (1, 5, 10, 301), (1, 5, 20, 303)]));
    let strike_first = made(&[(4, 0, (2, 5, 10, 0)), (4, 1, (1, 5, 10, 9))]);
    assert_eq!(history(&strike_first, 5, NOW), sectors(&[(2, 5, 10, 0)]));
}

/// A strike of the bib with stamp 0 is an entry, and comes first, also as of 0.
#[test]
fn a_strike_with_stamp_0() {
    let card = made(&[(5, 0, (1, 5, 1, 9)), (8, 3, (2, 5, 0, 0))]);
    assert_eq!(history(&card, 5, NOW), sectors(&[(2, 5, 0, 0), (1, 5, 1, 9)]));
    assert_eq!(history(&card, 5, 0), sectors(&[(2, 5, 0, 0)]));
}

/// Any sector of the bucket area, reachable or not, and no rule beside the sector's own: holes, mixed kinds and
/// keys below the header are no damage here. Nor is the log judged.
#[test]
fn damage_by_the_sector() {
    let mixed: &[(u32, u32, Sector)] =
        &[(2, 1, (1, 5, 9, 7)), (2, 3, (3, 5, 9, 8)), (2, 2, (2, 0, 0, 0)), (8, 3, (1, 1, 1, 1))];
    let card = made(mixed);
    assert_eq!(history(&card, 5, NOW), sectors(&[(1, 5, 9, 7)]));
    for bucket in 1..=8 {
        for sector in [0, 3] {
            for entry in
                [(4, 0, 0, 1), (5, 0, 0, 0), (6, 1, 1, 1), (255, 0, 0, 0), (0, 0, 1, 0), (0x100, 0, 0, 0)]
            {
                let card = made(&[mixed, &[(bucket, sector, entry)]].concat());
                assert_eq!(code(&card, 5, NOW, 80), 4, "{entry:?} in bucket {bucket}");
            }
        }
    }
    for entry in [(3, 0, 0, 0), (3, 0, 0, 9), (1, 0, 1, 1), (1, 1, 0, 1), (2, 1, 1, 1), (2, 0, 1, 0)] {
        assert_eq!(code(&made(&[mixed, &[(7, 0, entry)]].concat()), 5, NOW, 80), 4, "{entry:?}");
    }
    for status in 0..=255 {
        for time in [0, 9] {
            let card = made(&[mixed, &[(7, 0, (post_of(status), 6, 3, time))]].concat());
            let sound = status == 0 || status <= 3 && time == 0;
            assert_eq!(code(&card, 5, NOW, 80), if sound { 0 } else { 4 }, "status {status}, time {time}");
        }
    }
    let mut log = card;
    log[16..16 * 9].fill(9);
    assert_eq!(history(&log, 5, NOW), sectors(&[(1, 5, 9, 7)]));
}

/// More entries than one pass over the card can gather, each stamp at every place of the order.
#[test]
fn long_histories() {
    for many in [1, 31, 32, 33, 34, 35, 63, 64, 65, 127, 128, 129, 500] {
        let mut pair = Pair::formatted(2, Geometry { buckets: 800, sectors: 5, td: 0, ti: 0 });
        let mut expected = Vec::new();
        for i in 1..=many {
            assert_eq!(pair.call(Call::Post { bib: 7, at: 2 * i, status: 0, time: i }).code, 0);
            expected.push((1, 7, 2 * i, i));
        }
        let out = buffer(many as usize + 1);
        let left = compared(pair.card(), 7, NOW, &out);
        assert_eq!(left.tally, Tally { code: 0, count: many as usize });
        assert!(left.out[..16 * many as usize] == sectors(&expected), "{many}");
        assert_eq!(code(pair.card(), 7, NOW, 16 * many as usize - 1), 15);
        assert_eq!(compared(pair.card(), 7, many, &out).tally.count, many as usize / 2);
    }
}

// Against what was accepted.

/// The entries of a bib up to a stamp, as sectors.
fn listed(list: &List, bib: u32, at: u32) -> Vec<u8> {
    let of_bib = |said: &&Said| said.bib == bib && said.at <= at;
    let entry = |said: &Said| match said.result {
        Some((status, time)) => (post_of(status), bib, said.at, time),
        None => (2, bib, said.at, 0),
    };
    sectors(&list.entries().iter().filter(of_bib).map(entry).collect::<Vec<_>>())
}

/// Histories of some bibs as of some stamps against the list, in a buffer just long enough and one too short.
fn against(list: &List, card: &[u8], begin: u32, random: &mut Random, tally: &mut pair::Tally) {
    let (stamps, bibs) = asked(list);
    for _ in 0..12 {
        let (bib, at) = (random.of(&bibs).max(1), random.of(&stamps));
        let expected = listed(list, bib, at);
        let left = compared(card, bib, at, &vec![0x5a; expected.len()]);
        tally[left.tally.code as usize] += 1;
        if at < begin {
            assert_eq!(left.tally.code, 13);
            continue;
        }
        assert_eq!((left.tally.code, &left.out), (0, &expected), "{bib} as of {at}");
        if let Some(short) = expected.len().checked_sub(random.within(1, 16) as usize) {
            let left = compared(card, bib, at, &vec![0x5a; short]);
            assert_eq!(left.tally.code, 15, "{bib} as of {at}");
            tally[15] += 1;
        }
    }
}

/// The calls of a day, single and refused ones among them, then its histories; then those of its season card.
#[test]
fn on_cards_of_ours() {
    rounds("histories", 3, &[0, 13, 15], |seed| {
        let (mut random, mut tally) = (Random::new(seed), pair::Tally::default());
        let mut geometry = Geometry::random(&mut random);
        geometry.buckets = geometry.buckets.min(120);
        let mut card = vec![0; geometry.length()];
        geometry.format().run(&MODEL, &mut card);
        let (mut day, mut list) = (Day::random(&mut random), List::default());
        write(&mut card, &mut day, &mut list, &mut random);
        against(&list, &card, 0, &mut random, &mut tally);
        // the season card has the records that stood, and what comes after
        let at = (MODEL.state)(&card).last;
        let target = Geometry { buckets: 300, sectors: 8, td: 0, ti: 0 };
        let mut copy = season::copy(&card, at, target);
        let mut begun = List::default();
        for (kind, bib, at, time) in season::standing(&card, at).unwrap() {
            begun.push(Said { bib, at, result: Some((u32::from(kind >> 8), time)) });
        }
        let mut day = Day::random(&mut random).after(at);
        write(&mut copy, &mut day, &mut begun, &mut random);
        against(&begun, &copy, at, &mut random, &mut tally);
        tally
    });
}

fn write(card: &mut [u8], day: &mut Day, list: &mut List, random: &mut Random) {
    for _ in 0..random.of(&[5, 60, 250]) {
        let call = day.write(random);
        if call.run(&MODEL, card).code == 0 {
            list.push(said(call));
        }
    }
}

// Any bytes.

/// Foreign cards, whose stamps double, and cards with bytes changed.
#[test]
fn on_cards_not_of_our_making() {
    rounds("histories of foreign cards", 4, &[0, 1, 2, 4, 13, 15], |seed| {
        let (mut random, mut tally) = (Random::new(seed), pair::Tally::default());
        let mut card = foreign::card(&mut random);
        for _ in 0..random.of(&[0, 0, 1, 2]) {
            damage(&mut card, &mut random);
        }
        for _ in 0..15 {
            let bib = if random.chance(4) { 0 } else { random.within(1, 30) };
            let at = if random.chance(40) { NOW } else { random.within(0, 62) };
            let room = if random.chance(70) { 16 * 200 } else { random.within(0, 80) as usize };
            let left = compared(&card, bib, at, &vec![random.byte(); room]);
            tally[left.tally.code as usize] += 1;
        }
        tally
    });
}

/// Blank slices, noise, and a card cut to each length.
#[test]
fn lengths() {
    let (mut random, card) = (Random::new(3), evening());
    for len in 0..=700 {
        compared(&vec![0; len], 11, NOW, &buffer(2));
        let noise: Vec<u8> = (0..len).map(|_| random.byte()).collect();
        compared(&noise, 11, NOW, &buffer(2));
        let mut cut = card.clone();
        cut.resize(2 * len, 0);
        let expected = if 2 * len == card.len() { 0 } else { 1 };
        assert_eq!(code(&cut, 11, NOW, 80), expected, "{}", 2 * len);
    }
}
