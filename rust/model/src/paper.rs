//! Document 01's own examples, as checks of any implementation: the bench session, the growing
//! card's cases (a) to (h) and the panel values. Each panics where an answer or a byte is off.

use crate::call::{Call, Calls};
use crate::{Answer, Digits};

fn card_bytes(buckets: usize, sectors: usize) -> Vec<u8> {
    vec![0; 16 * (1 + buckets * (sectors + 1))]
}

/// The eleven lines of the bench session.
pub const SESSION: [Call; 11] = [
    Call::Format { buckets: 16, sectors: 4, td: 3, ti: 4 },
    Call::Post { bib: 8, at: 10, status: 0, time: 61230 },
    Call::Post { bib: 3, at: 20, status: 0, time: 58900 },
    Call::Post { bib: 11, at: 30, status: 0, time: 59990 },
    Call::Post { bib: 5, at: 40, status: 0, time: 60000 },
    Call::Strike { bib: 8, at: 50 },
    Call::Look { bib: 8, at: 49 },
    Call::Look { bib: 8, at: 50 },
    Call::Next { bib: 5, at: 49 },
    Call::Next { bib: 5, at: 50 },
    Call::Post { bib: 9, at: 50, status: 0, time: 1 },
];

/// What they answer: code, bib, at, time, reads; M-106 adds a status, which is 0 throughout.
pub const ANSWERS: [[u32; 5]; 11] = [
    [0; 5],
    [0; 5],
    [0; 5],
    [0; 5],
    [0; 5],
    [0; 5],
    [0, 8, 10, 61230, 2],
    [0, 8, 0, 0, 2],
    [0, 8, 10, 61230, 0],
    [0, 11, 30, 59990, 0],
    [3, 0, 0, 0, 0],
];

pub fn session(calls: &Calls) {
    let mut card = card_bytes(16, 4);
    for (call, [code, bib, at, time, reads]) in SESSION.into_iter().zip(ANSWERS) {
        assert_eq!(call.run(calls, &mut card), Answer { code, bib, at, status: 0, time, reads }, "{call:?}");
    }
}

/// The sectors of a bucket as (kind, key, stamp, value), blanks as zeros.
fn bucket(card: &[u8], bucket: usize) -> Vec<[u32; 4]> {
    let (sectors, buckets) = (card[1] as usize, u32::from_le_bytes(card[4..8].try_into().unwrap()) as usize);
    let from = 16 * (1 + buckets + (bucket - 1) * sectors);
    card[from..from + 16 * sectors]
        .chunks(16)
        .map(|s| [0, 4, 8, 12].map(|i| u32::from_le_bytes(s[i..i + 4].try_into().unwrap())))
        .collect()
}

/// The keys of a bucket's written sectors.
fn keys(card: &[u8], number: usize) -> Vec<u32> {
    bucket(card, number).into_iter().filter(|s| s[0] != 0).map(|s| s[1]).collect()
}

fn blanks(card: &[u8], number: usize) -> usize {
    bucket(card, number).into_iter().filter(|s| *s == [0; 4]).count()
}

/// The root log as (stamp, bucket).
fn roots(card: &[u8]) -> Vec<(u32, u32)> {
    let number = |s: &[u8], i: usize| u32::from_le_bytes(s[i..i + 4].try_into().unwrap());
    let buckets = number(card, 4) as usize;
    card[16..16 * (1 + buckets)]
        .chunks(16)
        .filter(|s| s[0] == 4)
        .map(|s| (number(s, 8), number(s, 12)))
        .collect()
}

/// Posts up to and including (c), on a card of `buckets` buckets; the last answer is given.
fn up_to_c(calls: &Calls, card: &mut [u8], buckets: u32) -> Answer {
    let accepted = |answer: Answer| assert_eq!(answer, Answer::default());
    accepted((calls.format)(card, buckets, 4, 3, 4));
    for (bib, at, time) in [(8, 10, 61230), (3, 20, 58900), (11, 30, 59990), (5, 40, 60000)] {
        accepted((calls.post)(card, bib, at, 0, time));
    }
    // (a)
    assert_eq!((keys(card, 3), keys(card, 4)), (vec![0, 3, 5], vec![8, 11]));
    accepted((calls.strike)(card, 8, 50));
    accepted((calls.post)(card, 11, 60, 0, 1));
    accepted((calls.post)(card, 11, 70, 0, 2));
    // (b)
    assert_eq!(bucket(card, 5), vec![[2, 8, 50, 0], [1, 11, 70, 2], [0; 4], [0; 4]]);
    assert_eq!(bucket(card, 1), vec![[3, 0, 0, 2], [3, 0, 40, 3], [3, 8, 40, 4], [3, 8, 70, 5]]);
    accepted((calls.post)(card, 12, 80, 0, 3));
    accepted((calls.post)(card, 13, 90, 0, 4));
    (calls.post)(card, 14, 100, 0, 5)
}

pub fn growing(calls: &Calls) {
    let mut card = card_bytes(16, 4);
    assert_eq!(up_to_c(calls, &mut card, 16), Answer::default());
    // (c)
    assert_eq!((keys(&card, 6), keys(&card, 7)), (vec![8, 11, 12], vec![13, 14]));
    assert_eq!(bucket(&card, 8), vec![[3, 0, 40, 3], [3, 8, 100, 6], [3, 13, 100, 7], [0; 4]]);
    assert_eq!(roots(&card), vec![(0, 1), (100, 8)]);
    // (d)
    let mut seven = card_bytes(7, 4);
    assert_eq!(up_to_c(calls, &mut seven, 7), Answer { code: 6, ..Answer::default() });
    assert_eq!((keys(&seven, 6), roots(&seven)), (vec![], vec![(0, 1)]));
    let mut eight = card_bytes(8, 4);
    assert_eq!(up_to_c(calls, &mut eight, 8), Answer::default());
    // (e)
    for (bib, at) in [(15, 110), (16, 120), (17, 130)] {
        assert_eq!((calls.post)(&mut card, bib, at, 0, bib), Answer::default());
    }
    assert_eq!((keys(&card, 9), keys(&card, 10)), (vec![13, 14, 15], vec![16, 17]));
    assert_eq!((keys(&card, 11), keys(&card, 12)), (vec![0, 8], vec![13, 16]));
    assert_eq!(bucket(&card, 13), vec![[3, 0, 130, 11], [3, 13, 130, 12], [0; 4], [0; 4]]);
    assert_eq!(roots(&card), vec![(0, 1), (100, 8), (130, 13)]);
    // (f), (g), (h)
    assert_eq!(
        (calls.look)(&card, 17, 130),
        Answer { code: 0, bib: 17, at: 130, status: 0, time: 17, reads: 3 }
    );
    assert_eq!(
        (calls.look)(&card, 16, 129),
        Answer { code: 0, bib: 16, at: 120, status: 0, time: 16, reads: 2 }
    );
    assert_eq!(blanks(&card, 8), 1);
}

/// The panel values, as M-100 moves those of document 01: time, field, answer.
pub const PANEL: [(u32, u32, u32, [u8; 6]); 14] = [
    (59_990, 4, 0, [5, 9, 9, 9, 0, 0]),
    (59_991, 4, 7, [0; 6]),
    (59_991, 5, 0, [1, 0, 0, 0, 0, 0]),
    (59_999, 4, 7, [0; 6]),
    (60_000, 4, 7, [0; 6]),
    (60_000, 5, 0, [1, 0, 0, 0, 0, 0]),
    (599_990, 5, 0, [9, 5, 9, 9, 9, 0]),
    (599_991, 5, 7, [0; 6]),
    (599_991, 6, 0, [1, 0, 0, 0, 0, 0]),
    (600_000, 5, 7, [0; 6]),
    (600_000, 6, 0, [1, 0, 0, 0, 0, 0]),
    (5_999_990, 6, 0, [9, 9, 5, 9, 9, 9]),
    (5_999_991, 6, 7, [0; 6]),
    (6_000_000, 6, 7, [0; 6]),
];

pub fn panel(calls: &Calls) {
    for (time, field, code, places) in PANEL {
        assert_eq!((calls.digits)(time, field), Digits { code, places }, "{time} in {field}");
    }
}
