//! A batch leaves the card and the answers that the same calls one by one would, on any bytes.

mod common;

use card_model::call::{Call, MODEL};
use common::batch::{blank_answers, compared, day, requests, spoil_some, whole, Left};
use common::bytes::{first_sector, get, pick, post_of, put, Entry};
use common::growth::{result, Day, Geometry};
use common::mutate::damage;
use common::pair::Tally;
use common::random::Random;
use common::{deep, foreign, length, rounds, setting, LIBRARY};

/// A card of `buckets` buckets of four sectors, formatted.
fn fresh(buckets: u32) -> Vec<u8> {
    let mut card = vec![0; length(buckets, 4)];
    let format = Call::Format { buckets, sectors: 4, td: 3, ti: 4 };
    assert_eq!(format.run(&LIBRARY, &mut card).code, 0);
    card
}

/// The answers of a batch that is accepted, the same in all ways, and the card it leaves.
fn answered(card: &[u8], asked: &[Entry]) -> (Vec<u8>, Vec<u8>) {
    let requests = requests(asked);
    let Left { code, card, answers } = compared(card, &requests, &blank_answers(&requests));
    assert_eq!(code, 0);
    (answers, card)
}

fn answers(card: &[u8], asked: &[Entry]) -> Vec<u8> {
    answered(card, asked).0
}

fn count(tally: &mut Tally, answers: &[u8]) {
    for &answer in answers {
        tally[answer as usize] += 1;
    }
}

/// The written sectors of the log.
fn roots(card: &[u8]) -> usize {
    let log = card[16..].chunks(16).take(get(card, 4) as usize);
    log.filter(|sector| sector[0] != 0).count()
}

// Answers reckoned by hand.

/// A refused request leaves no stamp behind, whatever refuses it, and an accepted one does.
#[test]
fn stamps_that_run_backwards() {
    let asked = [
        (1, 1, 10, 5),
        (1, 1, 9, 5),
        (1, 2, 10, 5),
        (1, 2, 0, 5),
        (2, 9, 50, 0), // nothing stands
        (1, 2, 11, 5),
        (9, 2, 60, 0), // no request
        (1, 0, 70, 5), // no bib
        (2, 1, 12, 0),
        (2, 2, 12, 0),
    ];
    assert_eq!(answers(&fresh(16), &asked), [0, 3, 3, 3, 5, 0, 11, 2, 0, 3]);
}

/// Whatever the first request is answered, the others are answered as after it. The card's largest stamp is 10.
#[test]
fn after_any_first_request() {
    let (_, card) = answered(&fresh(16), &[(1, 1, 10, 5)]);
    let firsts = [
        ((9, 1, 100, 0), 11),
        ((2, 1, 100, 7), 11),
        ((1, 0, 100, 5), 2),
        ((1, 2, 10, 5), 3),
        ((1, 2, 0, 5), 3),
        ((2, 9, 100, 0), 5),
    ];
    for (first, number) in firsts {
        let asked = [first, (1, 2, 10, 5), (1, 2, 11, 5), (1, 3, 11, 5), (2, 1, 12, 0)];
        assert_eq!(answers(&card, &asked), [number, 3, 0, 3, 0], "{first:?}");
    }
    let asked = [(1, 2, 20, 5), (1, 3, 20, 5), (1, 3, 15, 5), (2, 2, 21, 0), (2, 1, 22, 0), (1, 1, 22, 5)];
    assert_eq!(answers(&card, &asked), [0, 3, 3, 0, 0, 3]);
}

/// After the last stamp of all nothing more is accepted.
#[test]
fn the_last_stamp_closes_the_card() {
    let asked = [(1, 1, u32::MAX - 1, 5), (1, 2, u32::MAX, 5), (1, 3, u32::MAX, 5), (2, 1, 1, 0)];
    assert_eq!(answers(&fresh(16), &asked), [0, 0, 3, 3]);
}

/// Two buckets of four sectors have room for three entries. A refusal for want of room leaves no stamp, and
/// comes after 2, 3 and 5.
#[test]
fn a_card_that_fills_up() {
    let asked = [
        (1, 1, 1, 5),
        (1, 1, 2, 5),
        (1, 1, 3, 5),
        (1, 1, 4, 5),
        (1, 2, 4, 5),
        (2, 2, 4, 0), // nothing stands
        (2, 1, 4, 0),
        (1, 1, 3, 5),
        (1, 0, 4, 5),
        (2, 1, 4, 1), // a strike with a value
    ];
    let (told, full) = answered(&fresh(2), &asked);
    assert_eq!(told, [0, 0, 0, 6, 6, 5, 6, 3, 2, 11]);
    // from the full card on, each of them first
    for i in 3..asked.len() {
        assert_eq!(answers(&full, &asked[i..]), told[i..], "from {i}");
    }
}

/// Document 01's growing card as one batch: two divisions, a new root and then one above two more, each of
/// which the next request has to start from. The strike comes before its bib's bucket is divided.
#[test]
fn the_growing_card_in_one_batch() {
    let asked = [
        (1, 8, 10, 61230),
        (1, 3, 20, 58900),
        (1, 11, 30, 59990),
        (1, 5, 40, 60000),
        (2, 8, 50, 0),
        (1, 11, 60, 1),
        (1, 11, 70, 2),
        (1, 12, 80, 3),
        (1, 13, 90, 4),
        (1, 14, 100, 5),
        (1, 15, 110, 15),
        (1, 16, 120, 16),
        (1, 17, 130, 17),
    ];
    let (answers, card) = answered(&fresh(16), &asked);
    assert_eq!(answers, [0; 13]);
    // the root of two entries that the last post leaves in bucket 13
    let root = 16 * first_sector(16, 4, 13);
    let mut expected = [0; 64];
    put(&mut expected, 0, (3, 0, 130, 11));
    put(&mut expected, 1, (3, 13, 130, 12));
    assert_eq!(card[root..root + 64], expected);
    assert_eq!(roots(&card), 3);
    // with seven buckets the post of 14 does not fit, nor do those after it that lie beside it
    let (answers, card) = answered(&fresh(7), &asked);
    assert_eq!(answers, [0, 0, 0, 0, 0, 0, 0, 0, 0, 6, 6, 6, 6]);
    assert_eq!(roots(&card), 1);
}

/// Every kind but 1 and 2, every nonzero byte 2 and 3, every nonzero byte 1 of a strike and of its value.
#[test]
fn badly_asked() {
    let sound = [(1, 7, 20, 0), (2, 7, 20, 0)].map(|entry| requests(&[entry]));
    let mut bad = Vec::new();
    for kind in (0..=255).filter(|kind| ![1, 2].contains(kind)) {
        bad.push(requests(&[(kind, 7, 20, 0)]));
    }
    for (request, places) in [(&sound[0], 2..4), (&sound[1], 1..4), (&sound[1], 12..16)] {
        for place in places {
            for byte in 1..=255 {
                let mut request = request.clone();
                request[place] = byte;
                bad.push(request);
            }
        }
    }
    let (_, card) = answered(&fresh(16), &[(1, 7, 10, 5)]);
    for request in &bad {
        let left = compared(&card, request, &[0x5a]);
        assert_eq!((left.code, left.answers, &left.card), (0, vec![11], &card), "{request:?}");
    }
    // between two that are accepted, in one batch
    let row: Vec<u8> = [sound[0].clone(), bad.concat(), requests(&[(2, 7, 21, 0)])].concat();
    let left = compared(&card, &row, &blank_answers(&row));
    assert_eq!(left.answers[0], 0);
    assert!(left.answers[1..=bad.len()].iter().all(|&answer| answer == 11));
    assert_eq!(left.answers[bad.len() + 1..], [0]);
}

/// 11 comes ahead of 2, 3, 4, 5 and 6, and 1 ahead of it.
#[test]
fn badly_asked_ahead_of_all_but_the_layout() {
    let (_, mut full) = answered(&fresh(2), &[(1, 1, 1, 5), (1, 1, 2, 5), (1, 1, 3, 5)]);
    let asked = [(3, 0, 9, 0), (3, 1, 0, 0), (2, 2, 9, 1), (2, 1, 9, 1), (0, 0, 0, 0)];
    assert_eq!(answers(&full, &asked), [11; 5]);
    full[16] = 5; // damage in the log
    assert_eq!(answers(&full, &asked), [11; 5]);
    assert_eq!(answers(&full, &[(1, 1, 4, 5), (1, 0, 4, 5), (1, 1, 3, 5), (2, 2, 9, 0)]), [4, 2, 3, 4]);
    full[0] = 5;
    assert_eq!(answers(&full, &asked), [1; 5]);
}

/// Damage on one bib's path stops no other bib.
#[test]
fn damage_on_one_path() {
    let grown = [(1, 8, 10, 1), (1, 3, 20, 1), (1, 11, 30, 1), (1, 5, 40, 1)];
    let (_, mut card) = answered(&fresh(16), &grown);
    // the bibs from 8 are in bucket 4: a nonzero byte behind its two entries
    card[16 * first_sector(16, 4, 4) + 63] = 1;
    let asked = [(1, 9, 50, 1), (1, 4, 50, 1), (2, 8, 60, 0), (2, 3, 60, 0), (1, 3, 60, 1), (1, 3, 61, 1)];
    assert_eq!(answers(&card, &asked), [4, 0, 4, 0, 3, 0]);
}

// Lengths.

/// Every length of requests beside every number of answers: 12 unless one is sixteen times the other, on a
/// card and on what is none. 12 leaves every byte.
#[test]
fn unpaired() {
    let asked = requests(&[(1, 1, 10, 5), (1, 2, 20, 5), (2, 1, 30, 0), (1, 3, 40, 5), (1, 4, 50, 5)]);
    for card in [fresh(16), vec![0; 336], Vec::new()] {
        for len in 0..=asked.len() {
            for places in 0..=6 {
                let before = vec![0x5a; places];
                let left = compared(&card, &asked[..len], &before);
                if len == 16 * places {
                    assert_eq!(left.code, 0);
                } else {
                    assert_eq!(
                        left,
                        Left { code: 12, card: card.clone(), answers: before },
                        "{len}, {places}"
                    );
                }
            }
        }
    }
}

/// A batch of none is accepted, and changes nothing, whatever the card.
#[test]
fn no_request() {
    let mut random = Random::new(4);
    let noise = (0..500).map(|_| random.byte()).collect();
    for card in [fresh(2), foreign::card(&mut random), vec![0; 100], noise, Vec::new()] {
        assert_eq!(compared(&card, &[], &[]), Left { code: 0, card, answers: Vec::new() });
    }
}

/// What is no card is accepted as a batch, and every request of it answered 1, the badly asked too.
#[test]
fn on_no_card() {
    let asked = [(1, 1, 10, 5), (2, 1, 20, 0), (1, 0, 30, 5), (7, 1, 40, 0), (2, 1, 50, 9), (0, 0, 0, 0)];
    let card = fresh(8);
    let mut broken: Vec<Vec<u8>> = (0..card.len()).step_by(7).map(|len| card[..len].to_vec()).collect();
    for (place, byte) in [(0, 5), (1, 3), (1, 33), (2, 0), (2, 5), (3, 3), (4, 1), (12, 1), (15, 255)] {
        let mut other = card.clone();
        other[place] = byte;
        broken.push(other);
    }
    for card in broken {
        assert_eq!(answered(&card, &asked), (vec![1; 6], card));
    }
}

// Random batches.

/// Days on cards of our own, their writes in batches of any size. Each batch starts from the card that the
/// one before it has left, and some of them have to meet a new root on the way.
#[test]
fn on_cards_of_ours() {
    let mut new_roots = 0;
    rounds("batches on own cards", 15, &[0, 2, 3, 5, 6, 11, 14], |seed| {
        let mut random = Random::new(seed);
        let mut geometry = Geometry::random(&mut random);
        geometry.buckets = geometry.buckets.min(120);
        let mut card = vec![0; geometry.length()];
        geometry.format().run(&MODEL, &mut card);
        let (mut source, mut tally) = (Day::random(&mut random), Tally::default());
        for _ in 0..8 {
            let many = random.of(&[1, 2, 7, 40, 90]);
            let requests = day(&mut random, &mut source, many);
            let left = compared(&card, &requests, &blank_answers(&requests));
            new_roots += roots(&left.card) - roots(&card);
            count(&mut tally, &left.answers);
            card = left.card;
        }
        tally
    });
    // as in `rounds`, little is asked of few calls
    assert!(new_roots > 100 || setting("CARD_CALLS", 400_000) < 100_000, "{new_roots} new roots");
}

/// Requests for a card not of our making: the bibs it speaks of and those beside them, stamps mostly above
/// its own.
fn for_foreign(card: &[u8], random: &mut Random, many: u32) -> Vec<u8> {
    let mut asked = Vec::new();
    for turn in 0..many {
        let near = if card.len() < 32 { 1 } else { get(card, 16 * pick(card, random, true) + 4) };
        let bib = near.wrapping_add(random.of(&[0, 0, 0, 1, 2, u32::MAX]));
        let at = match random.within(0, 19) {
            0 => random.any(),
            1 => random.within(0, 62),
            _ => (1 << 30) + turn,
        };
        let (status, time) = result(random);
        let strike = random.chance(35);
        asked.push(if strike { (2, bib, at, 0) } else { (post_of(status), bib, at, time) });
    }
    let mut bytes = requests(&asked);
    spoil_some(&mut bytes, random);
    bytes
}

#[test]
fn on_cards_not_of_our_making() {
    rounds("batches on foreign cards", 10, &[0, 1, 2, 3, 4, 5, 6, 11, 14], |seed| {
        let mut random = Random::new(seed);
        let mut card = foreign::card(&mut random);
        for _ in 0..random.of(&[0, 0, 1, 2]) {
            damage(&mut card, &mut random);
        }
        let mut tally = Tally::default();
        for many in [3, 25] {
            let requests = for_foreign(&card, &mut random, many);
            let left = compared(&card, &requests, &blank_answers(&requests));
            count(&mut tally, &left.answers);
            card = left.card;
        }
        tally
    });
}

/// Our own with bytes changed, then batches on them.
#[test]
fn on_cards_of_ours_with_bytes_changed() {
    rounds("batches on changed cards", 5, &[0, 1, 3, 4, 6, 11, 14], |seed| {
        let mut random = Random::new(seed);
        let mut geometry = Geometry::random(&mut random);
        geometry.buckets = geometry.buckets.min(60);
        let mut card = vec![0; geometry.length()];
        geometry.format().run(&MODEL, &mut card);
        let mut source = Day::random(&mut random);
        let morning = day(&mut random, &mut source, 60);
        card = whole(&MODEL, &card, &morning, &blank_answers(&morning)).card;
        for _ in 0..random.within(1, 3) {
            damage(&mut card, &mut random);
        }
        let afternoon = day(&mut random, &mut source, 30);
        let left = compared(&card, &afternoon, &blank_answers(&afternoon));
        let mut tally = Tally::default();
        count(&mut tally, &left.answers);
        tally
    });
}

/// Cut at every place, the two parts leave the card and give the answers of the whole.
fn cut_everywhere(card: &[u8], requests: &[u8]) {
    let all = compared(card, requests, &blank_answers(requests));
    for cut in 0..=all.answers.len() {
        let (first, second) = requests.split_at(16 * cut);
        let before = whole(&LIBRARY, card, first, &blank_answers(first));
        let after = whole(&LIBRARY, &before.card, second, &blank_answers(second));
        assert_eq!((before.code, after.code), (0, 0));
        assert_eq!([before.answers, after.answers].concat(), all.answers, "answers, cut at {cut}");
        assert!(after.card == all.card, "the card, cut at {cut}");
    }
}

#[test]
fn cut_in_two() {
    for seed in 1..=60 {
        let mut random = Random::new(seed);
        let mut geometry = Geometry::random(&mut random);
        geometry.buckets = geometry.buckets.min(40);
        let mut card = vec![0; geometry.length()];
        geometry.format().run(&MODEL, &mut card);
        let mut source = Day::random(&mut random);
        let requests = day(&mut random, &mut source, 60);
        cut_everywhere(&card, &requests);
        let mut card = foreign::card(&mut random);
        damage(&mut card, &mut random);
        let requests = for_foreign(&card, &mut random, 20);
        cut_everywhere(&card, &requests);
    }
}

// Large cards.

/// Foreign cards of many levels: a request that rewrites them all, and those after it on the new path.
#[test]
fn on_deep_cards() {
    for levels in [1, 2, 14, 15, 16, 17, 18, 31, 32, 33, 70, 1300] {
        for keys in [false, true] {
            let card = deep::card(levels, |_| 4, keys);
            let asked = [(1, 2, 50, 1), (1, 1, 51, 2), (2, 2, 52, 0), (1, 3, 53, 3), (1, 1, 54, 4)];
            let (answers, left) = answered(&card, &asked);
            assert_eq!(answers, [0; 5], "{levels} levels");
            assert_eq!(roots(&left), 2, "{levels} levels");
        }
    }
}

/// A morning on the largest card.
#[test]
fn on_the_largest_card() {
    let mut random = Random::new(78);
    let mut card = vec![0; length(4096, 32)];
    Call::Format { buckets: 4096, sectors: 32, td: 2, ti: 4 }.run(&MODEL, &mut card);
    let asked: Vec<Entry> = (1..=1600).map(|at| (1, random.within(1, 3000), at, at)).collect();
    let (answers, left) = answered(&card, &asked);
    assert_eq!(answers, [0; 1600]);
    assert!(roots(&left) > 1);
}
