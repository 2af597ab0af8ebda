//! The status beside the time: stored, asked, refused, carried by copies, batches and the journal.

mod common;

use card_model::call::{Call, MODEL};
use card_model::Answer;
use common::batch::{compared, requests};
use common::bytes::{first_sector, post_of, put, set};
use common::growth::Geometry;
use common::journal::{journal, JournalPair};
use common::pair::Pair;
use common::season::{copy, onto_blank};

const NOW: u32 = u32::MAX;

fn shape(buckets: u32) -> Geometry {
    Geometry { buckets, sectors: 4, td: 0, ti: 0 }
}

/// Bib 5 with this status and time as its only post, on a card and in a journal; made by hand.
fn stored(byte: u8, time: u32) -> (Vec<u8>, Vec<u8>) {
    let mut card = Pair::formatted(1, shape(8)).card().to_vec();
    let sector = first_sector(8, 4, 2) + 1;
    put(&mut card, sector, (1, 5, 10, time));
    card[16 * sector + 1] = byte;
    let mut plain = journal(2, &[(1, 5, 10, time)]);
    plain[1] = byte;
    (card, plain)
}

/// By document 02's words: 0 to 3, and a time of 0 unless it is 0.
fn is_sound(byte: u8, time: u32) -> bool {
    byte == 0 || byte <= 3 && time == 0
}

/// Every byte 1 of a stored post, beside a time and beside none: the result, or damage; in a journal, none.
#[test]
fn every_stored_status() {
    for byte in 0..=255 {
        for time in [0, 1, 256, 1 << 16, 1 << 24, NOW] {
            let (card, plain) = stored(byte, time);
            let result = Answer { bib: 5, at: 10, status: byte.into(), time, ..Answer::ACCEPTED };
            let sound = is_sound(byte, time);
            let expected = |number, reads| {
                if sound {
                    Answer { reads, ..result }
                } else {
                    Answer::refused(number)
                }
            };
            let mut pair = Pair::new(2, card);
            assert_eq!(pair.call(Call::Look { bib: 5, at: NOW }), expected(4, 2), "{byte} with {time}");
            assert_eq!(pair.call(Call::Next { bib: 0, at: NOW }), expected(4, 0), "{byte} with {time}");
            let post = Call::Post { bib: 5, at: 20, status: 0, time: 7 };
            assert_eq!(pair.call(post).code, if sound { 0 } else { 4 }, "{byte} with {time}");
            let mut pair = JournalPair::new(2, plain);
            assert_eq!(pair.call(Call::Look { bib: 5, at: NOW }), expected(1, 0), "{byte} with {time}");
            assert_eq!(pair.call(Call::Next { bib: 0, at: NOW }), expected(1, 0), "{byte} with {time}");
            assert_eq!(pair.call(post).code, if sound { 0 } else { 1 }, "{byte} with {time}");
        }
    }
}

/// Only a post has a status: byte 1 of a strike, of an index entry and of a root entry is 0.
#[test]
fn no_status_elsewhere() {
    let mut pair = Pair::formatted(3, shape(8));
    assert_eq!(pair.call(Call::Post { bib: 5, at: 10, status: 2, time: 0 }).code, 0);
    assert_eq!(pair.call(Call::Strike { bib: 5, at: 20 }).code, 0);
    let (log, index, data) = (1, first_sector(8, 4, 1), first_sector(8, 4, 2));
    for sector in [log, index, data, data + 2] {
        for byte in 1..=255 {
            let mut card = pair.card().to_vec();
            card[16 * sector + 1] = byte;
            assert_eq!(Pair::new(4, card).call(Call::Look { bib: 5, at: NOW }).code, 4, "sector {sector}");
        }
    }
}

/// A result without a time stands, unlike a strike, until it is corrected or struck.
#[test]
fn it_stands() {
    let calls = [
        Call::Post { bib: 5, at: 10, status: 1, time: 0 },
        Call::Post { bib: 6, at: 20, status: 3, time: 0 },
        Call::Post { bib: 5, at: 30, status: 0, time: 61230 },
        Call::Post { bib: 5, at: 40, status: 2, time: 0 },
        Call::Strike { bib: 6, at: 50 },
    ];
    let (mut card, mut plain) = (Pair::formatted(5, shape(16)), JournalPair::new(5, vec![0; 16 * 9]));
    for call in calls {
        assert_eq!((card.call(call).code, plain.call(call).code), (0, 0), "{call:?}");
    }
    let record = |bib, at, status, time| Answer { bib, at, status, time, ..Answer::ACCEPTED };
    for (bib, at, expected) in [
        (5, 9, record(5, 0, 0, 0)),
        (5, 29, record(5, 10, 1, 0)),
        (5, 30, record(5, 30, 0, 61230)),
        (5, 40, record(5, 40, 2, 0)),
        (6, 49, record(6, 20, 3, 0)),
        (6, 50, record(6, 0, 0, 0)),
    ] {
        let look = Call::Look { bib, at };
        assert_eq!((Answer { reads: 0, ..card.call(look) }, plain.call(look)), (expected, expected));
    }
    let next = Call::Next { bib: 5, at: 49 };
    assert_eq!((card.call(next), plain.call(next)), (record(6, 20, 3, 0), record(6, 20, 3, 0)));
    // a season card carries it
    let mut season = Pair::new(6, copy(card.card(), 49, shape(8)));
    assert_eq!(season.call(Call::Next { bib: 0, at: 49 }), record(5, 40, 2, 0));
    assert_eq!(season.call(Call::Next { bib: 5, at: 49 }), record(6, 20, 3, 0));
}

/// A bucket that is rewritten copies each post's status.
#[test]
fn rewritten() {
    let mut pair = Pair::formatted(7, shape(40));
    for at in 1..=20 {
        let status = at % 4;
        let time = if status == 0 { at } else { 0 };
        assert_eq!(pair.call(Call::Post { bib: at, at, status, time }).code, 0);
    }
    for bib in 1..=20 {
        let answer = pair.call(Call::Look { bib, at: NOW });
        assert_eq!((answer.at, answer.status), (bib, bib % 4));
    }
}

/// 14 after 2 and before 3 in a post; every status above 3, and a time beside each of 1 to 3.
#[test]
fn refused_in_order() {
    let mut card = Pair::formatted(8, shape(2));
    let mut plain = JournalPair::new(8, vec![0; 16]);
    assert_eq!(card.call(Call::Post { bib: 5, at: 10, status: 0, time: 7 }).code, 0);
    assert_eq!(plain.call(Call::Post { bib: 5, at: 10, status: 0, time: 7 }).code, 0);
    for status in [4, 5, 255, 256, 257, 258, 259, 1 << 16, 1 << 31, NOW] {
        for (bib, at, number) in [(0, 10, 2), (5, 10, 14), (5, 11, 14)] {
            for time in [0, 7] {
                let post = Call::Post { bib, at, status, time };
                assert_eq!((card.call(post).code, plain.call(post).code), (number, number), "{post:?}");
            }
        }
    }
    for status in 1..=3 {
        for (at, time, number) in [(10, 7, 14), (11, 1, 14), (11, 256, 14), (11, NOW, 14), (10, 0, 3)] {
            let post = Call::Post { bib: 5, at, status, time };
            assert_eq!((card.call(post).code, plain.call(post).code), (number, number), "{post:?}");
        }
    }
    // a broken head, and a slice that is no journal, ahead of it
    let mut broken = card.card().to_vec();
    broken[0] = 5;
    let post = Call::Post { bib: 5, at: 10, status: 4, time: 0 };
    assert_eq!(Pair::new(9, broken).call(post).code, 1);
    assert_eq!(JournalPair::new(9, vec![0; 15]).call(post).code, 1);
    // damage behind it
    let mut damaged = card.card().to_vec();
    damaged[16] = 5;
    assert_eq!(Pair::new(9, damaged).call(post).code, 14);
}

/// In a batch byte 1 of a post is its status, whatever it is no matter of 11: 11, 2, 14, 3 in this order.
#[test]
fn in_a_batch() {
    let card = Pair::formatted(10, shape(16)).card().to_vec();
    for byte in 0..=255u32 {
        for time in [0, 9] {
            let sound = is_sound(byte as u8, time);
            let row = requests(&[
                (post_of(byte), 5, 10, time),
                (post_of(byte), 0, 10, time),
                (post_of(byte), 6, 0, time),
                (2 | (byte as u16) << 8, 5, 20, 0),
            ]);
            let left = compared(&card, &row, &[0x5a; 4]);
            let strike = if byte != 0 { 11 } else { 0 };
            let expected = if sound { [0, 2, 3, strike] } else { [14, 2, 14, 11] };
            assert_eq!(left.answers, expected, "{byte} with {time}");
        }
    }
    for place in [2, 3] {
        let mut request = requests(&[(post_of(4), 0, 0, 1)]);
        request[place] = 1;
        assert_eq!(compared(&card, &request, &[0x5a]).answers, [11]);
    }
}

/// Damage by a status is damage for a season copy too.
#[test]
fn no_season_of_it() {
    let (card, _) = stored(4, 0);
    assert_eq!(onto_blank(&card, NOW, shape(8)).code, 4);
    let (mut card, _) = stored(1, 0);
    assert_eq!(onto_blank(&card, NOW, shape(8)).code, 0);
    set(&mut card, 16 * (first_sector(8, 4, 2) + 1) + 12, 1);
    assert_eq!(onto_blank(&card, NOW, shape(8)).code, 4);
}

/// The records in a row have their status in byte 1.
#[test]
fn records_in_a_row() {
    let mut card = Pair::formatted(11, shape(16));
    for status in 0..=3 {
        let post = Call::Post { bib: 10 + status, at: 1 + status, status, time: 0 };
        assert_eq!(card.call(post).code, 0);
    }
    let mut page = [0x5a; 16 * 5];
    let records: Vec<card::Record> = card::records(card.card(), 0, NOW, &mut page).unwrap().collect();
    let statuses = [0, 1, 2, 3].map(|i| records[i].status.number());
    assert_eq!((statuses, [1, 17, 33, 49].map(|place| page[place])), ([0, 1, 2, 3], [0, 1, 2, 3]));
    assert_eq!(page[64..], [0x5a; 16]);
    assert_eq!((MODEL.next)(card.card(), 12, NOW).status, 3);
}
