//! Cards made by hand, one for each place where the words of documents 01 and 02 could be read in two ways,
//! with the answer it should give. The readings and their reasons stand in docs/DECISIONS.md.

mod common;

use card_model::call::Call;
use card_model::Answer;
use common::bytes::{first_sector, get, put, put_head, set, Entry};
use common::length;
use common::pair::Pair;

const NOW: u32 = u32::MAX;
const DUMMY: Entry = (2, 0, 0, 0);
const ROOT: Entry = (4, 0, 0, 1);
const DOWN: Entry = (3, 0, 0, 2);

/// A card of eight buckets of four sectors, TD = 3, TI = 4, with these entries in the log and in
/// buckets 1, 2 and on.
fn made(log: &[Entry], buckets: &[&[Entry]]) -> Vec<u8> {
    let mut card = vec![0; length(8, 4)];
    put_head(&mut card, 8, 4, 3, 4);
    for (i, &entry) in log.iter().enumerate() {
        put(&mut card, 1 + i, entry);
    }
    for (b, entries) in buckets.iter().enumerate() {
        for (i, &entry) in entries.iter().enumerate() {
            put(&mut card, first_sector(8, 4, 1 + b as u32) + i, entry);
        }
    }
    card
}

/// The answer of one call, the same from both implementations; none here has another status than 0.
fn ask(card: &[u8], call: Call) -> [u32; 5] {
    let Answer { code, bib, at, status, time, reads } = Pair::new(0, card.to_vec()).call(call);
    assert_eq!(status, 0, "{call:?}");
    [code, bib, at, time, reads]
}

/// The card that an accepted call leaves.
fn after(card: &[u8], call: Call) -> Vec<u8> {
    let mut pair = Pair::new(0, card.to_vec());
    assert_eq!(pair.call(call), Answer::default());
    pair.card().to_vec()
}

fn refused(number: u32) -> [u32; 5] {
    [number, 0, 0, 0, 0]
}

fn look(bib: u32, at: u32) -> Call {
    Call::Look { bib, at }
}

fn post(bib: u32, at: u32) -> Call {
    Call::Post { bib, at, status: 0, time: 7 }
}

/// The entries of a bucket's written sectors.
fn bucket(card: &[u8], number: u32) -> Vec<Entry> {
    let from = 16 * first_sector(8, 4, number);
    let sectors = card[from..from + 64].chunks(16).filter(|sector| sector.iter().any(|&byte| byte != 0));
    sectors.map(|s| (u16::from_le_bytes([s[0], s[1]]), get(s, 4), get(s, 8), get(s, 12))).collect()
}

/// Key 0 asks for stamp 0, but stamp 0 does not ask for key 0.
#[test]
fn a_strike_of_a_bib_may_have_stamp_0() {
    let card = made(&[ROOT], &[&[DOWN], &[DUMMY, (1, 5, 1, 9), (2, 5, 0, 0)]]);
    assert_eq!(ask(&card, look(5, NOW)), [0, 5, 0, 0, 2]);
    let card = made(&[ROOT], &[&[DOWN], &[DUMMY, (2, 0, 3, 0)]]);
    assert_eq!(ask(&card, look(5, NOW)), refused(4));
}

/// A kind of 0 beside other bytes is damage on the path; elsewhere its stamp
/// does not count, but its bucket is used. Blank buckets below it stay blank.
#[test]
fn kind_0_with_other_bytes() {
    let full: &[Entry] = &[DUMMY, (1, 5, 1, 9), (1, 6, 2, 9), (1, 8, 3, 9)];
    let card = made(&[ROOT], &[&[DOWN], full, &[], &[], &[(0, 0, 99, 0)]]);
    let left = after(&card, post(7, 4));
    assert_eq!(bucket(&left, 6), [DUMMY, (1, 5, 1, 9), (1, 6, 2, 9)]);
    assert_eq!(bucket(&left, 7), [(1, 7, 4, 7), (1, 8, 3, 9)]);
    assert_eq!((bucket(&left, 3), bucket(&left, 4)), (vec![], vec![]));
    let card = made(&[ROOT], &[&[DOWN], &[DUMMY, (1, 5, 1, 9), (0, 0, 0, 1)]]);
    assert_eq!(ask(&card, look(5, NOW)), refused(4));
}

/// Damage behind the wanted entry, behind blanks, and in the log whatever t is.
#[test]
fn whole_buckets_and_the_whole_log_are_judged() {
    let behind = made(&[ROOT], &[&[DOWN], &[DUMMY, (1, 5, 1, 9), (5, 6, 50, 0)]]);
    assert_eq!(ask(&behind, look(5, 1)), refused(4));
    let mut gap = made(&[ROOT], &[&[DOWN], &[DUMMY, (1, 5, 1, 9)]]);
    assert_eq!(ask(&gap, look(5, 1)), [0, 5, 1, 9, 2]);
    put(&mut gap, first_sector(8, 4, 2) + 3, (1, 6, 50, 9));
    assert_eq!(ask(&gap, look(5, 1)), refused(4));
    let log = made(&[ROOT, (4, 1, 50, 1)], &[&[DOWN], &[DUMMY, (1, 5, 1, 9)]]);
    assert_eq!(ask(&log, look(5, 1)), refused(4));
}

/// A header counts though stamped after t. Nothing left as of t is damage in
/// the log and in an index bucket, none in a data bucket.
#[test]
fn nothing_left_as_of_t() {
    let card = made(&[(4, 0, 5, 1)], &[&[(3, 0, 10, 2)], &[(2, 0, 0, 0)]]);
    assert_eq!(ask(&card, look(1, 4)), refused(4));
    assert_eq!(ask(&card, look(1, 9)), refused(4));
    assert_eq!(ask(&card, look(1, 10)), [0, 1, 0, 0, 2]);
    let card = made(&[ROOT], &[&[DOWN, (3, 5, 0, 3)], &[DUMMY], &[(1, 5, 50, 9)]]);
    assert_eq!(ask(&card, look(5, 49)), [0, 5, 0, 0, 2]);
    let card = made(&[ROOT], &[&[DOWN, (3, 5, 0, 3)], &[DUMMY], &[(1, 6, 50, 9)]]);
    assert_eq!(ask(&card, look(6, 49)), refused(4));
}

/// One read; when full it is rewritten to one bucket, which is the root, or to two
/// below a new root.
#[test]
fn a_data_bucket_as_root() {
    let card = made(&[ROOT], &[&[DUMMY, (1, 5, 1, 9), (1, 5, 2, 9), (1, 5, 3, 9)]]);
    assert_eq!(ask(&card, look(5, NOW)), [0, 5, 3, 9, 1]);
    let one = after(&card, post(5, 4));
    assert_eq!(bucket(&one, 2), [DUMMY, (1, 5, 4, 7)]);
    assert_eq!((get(&one, 32), get(&one, 40), get(&one, 44)), (4, 4, 2));
    let two = after(&card, post(6, 4));
    assert_eq!((bucket(&two, 2), bucket(&two, 3)), (vec![DUMMY, (1, 5, 3, 9)], vec![(1, 6, 4, 7)]));
    assert_eq!(bucket(&two, 4), [(3, 0, 4, 2), (3, 6, 4, 3)]);
    assert_eq!(ask(&two, look(6, 4)), [0, 6, 4, 7, 2]);
}

/// The last by place, whatever the stamps.
#[test]
fn last_is_last_by_place() {
    let data: &[Entry] = &[DUMMY, (1, 5, 30, 111), (1, 5, 20, 222)];
    let card = made(&[(4, 0, 50, 2), (4, 0, 10, 1)], &[&[DOWN], data]);
    assert_eq!(ask(&card, look(5, NOW)), [0, 5, 20, 222, 2]);
    let card = made(&[ROOT], &[&[(3, 0, 9, 3), (3, 0, 1, 2)], data, &[DUMMY]]);
    assert_eq!(ask(&card, look(5, NOW)), [0, 5, 20, 222, 2]);
}

/// A bucket reached by a larger X is still asked for bibs above the first k, and a
/// bucket not walked is not judged.
#[test]
fn next_walks_on_from_the_path_it_made() {
    let index: &[Entry] = &[DOWN, (3, 5, 0, 3), (3, 9, 0, 4)];
    let card =
        made(&[ROOT], &[index, &[DUMMY, (1, 2, 1, 9)], &[(1, 5, 1, 9)], &[(1, 9, 1, 9), (7, 0, 0, 0)]]);
    let next = |bib| ask(&card, Call::Next { bib, at: NOW });
    assert_eq!(next(0), [0, 2, 1, 9, 0]);
    assert_eq!(next(2), [0, 5, 1, 9, 0]);
    assert_eq!(next(5), refused(4));
}

/// Each walk of a next begins at the root: a key on two levels of the path before is followed from
/// the upper one, also after a walk to a key that only the lower one has.
#[test]
fn next_follows_a_key_from_the_uppermost_level() {
    let root: &[Entry] = &[DOWN, (3, 10, 0, 3), (3, 20, 0, 4)];
    let lower: &[Entry] = &[(3, 0, 0, 5), (3, 7, 0, 6), (3, 10, 0, 7)];
    let buckets =
        [root, lower, &[(1, 10, 1, 33)], &[(1, 20, 1, 44)], &[DUMMY], &[(2, 7, 1, 0)], &[(1, 10, 2, 77)]];
    let card = made(&[ROOT], &buckets);
    for bib in [5, 7] {
        assert_eq!(ask(&card, Call::Next { bib, at: NOW }), [0, 10, 1, 33, 0]);
    }
    assert_eq!(ask(&card, Call::Next { bib: 10, at: NOW }), [0, 20, 1, 44, 0]);
}

/// Every bucket sector with nonzero kind counts, damaged or out of reach; the log does
/// not.
#[test]
fn the_largest_stamp() {
    let mut card = made(&[ROOT, (4, 0, 500, 1)], &[&[DOWN], &[DUMMY], &[], &[(9, 0, 99, 0)]]);
    assert_eq!(ask(&card, post(1, 99)), refused(3));
    assert_eq!(ask(&card, post(1, 100)), [0; 5]);
    put(&mut card, first_sector(8, 4, 8), (255, 0, NOW, 0));
    assert_eq!(ask(&card, post(1, NOW)), refused(3));
}

/// Of the strikes, the one on the header of the bucket rewritten and the call's own.
#[test]
fn strikes_kept() {
    let index: &[Entry] = &[DOWN, (3, 5, 0, 3)];
    let card = made(&[ROOT], &[index, &[DUMMY], &[(2, 5, 1, 0), (2, 6, 2, 0), (1, 7, 3, 9), (1, 8, 4, 9)]]);
    let left = after(&card, Call::Strike { bib: 8, at: 5 });
    assert_eq!((bucket(&left, 4), bucket(&left, 5)), (vec![(2, 5, 1, 0), (1, 7, 3, 9)], vec![(2, 8, 5, 0)]));
}

/// A full log is in the way of a new root alone.
#[test]
fn a_full_log() {
    let data: &[Entry] = &[DUMMY, (1, 5, 1, 9), (1, 5, 2, 9), (1, 5, 3, 9)];
    let roomy = made(&[ROOT; 8], &[&[DOWN], data]);
    assert_eq!(ask(&roomy, post(5, 4)), [0; 5]);
    let full = made(&[ROOT; 8], &[&[DOWN; 4], data]);
    assert_eq!(ask(&full, post(5, 4)), refused(6));
    let one_left = made(&[ROOT; 7], &[&[DOWN; 4], data]);
    assert_eq!(ask(&one_left, post(5, 4)), [0; 5]);
}

/// Of several numbers the first in order; a stored TD of 0 breaks the layout.
#[test]
fn the_order_of_checking() {
    let mut card = made(&[ROOT], &[&[DOWN; 4], &[DUMMY, (1, 5, 1, 9), (1, 5, 2, 9), (1, 5, 3, 9)]]);
    put(&mut card, first_sector(8, 4, 8), (1, 1, 3, 1));
    assert_eq!(ask(&card, Call::Strike { bib: 6, at: 4 }), refused(5));
    assert_eq!(ask(&card, Call::Strike { bib: 5, at: 4 }), refused(6));
    assert_eq!((ask(&card, look(5, 0)), ask(&card, look(0, 0))), ([0, 5, 0, 0, 2], refused(2)));
    assert_eq!(ask(&card, Call::Next { bib: 0, at: 0 }), [0; 5]);
    card[16 * first_sector(8, 4, 1) + 1] = 1;
    assert_eq!(ask(&card, Call::Strike { bib: 6, at: 4 }), refused(4));
    assert_eq!(ask(&card, Call::Strike { bib: 6, at: 3 }), refused(3));
    assert_eq!(ask(&card, post(0, 3)), refused(2));
    card[2] = 0;
    assert_eq!(ask(&card, post(0, 3)), refused(1));
}

/// 13 is for questions as of a stamp before the beginning, after bib 0 and ahead of damage. A post or strike
/// is asked for the stamps in the buckets alone, and so may come before the beginning of a foreign card.
#[test]
fn a_beginning_is_for_questions() {
    let mut card = made(&[ROOT], &[&[DOWN], &[DUMMY, (1, 5, 3, 9)]]);
    set(&mut card, 8, 20);
    assert_eq!(ask(&card, look(5, 19)), refused(13));
    assert_eq!(ask(&card, look(5, 20)), [0, 5, 3, 9, 2]);
    assert_eq!(ask(&card, look(0, 19)), refused(2));
    assert_eq!(ask(&card, Call::Next { bib: 0, at: 19 }), refused(13));
    assert_eq!(ask(&card, Call::Next { bib: 0, at: 20 }), [0, 5, 3, 9, 0]);
    assert_eq!(ask(&card, post(6, 3)), refused(3));
    assert_eq!(bucket(&after(&card, post(6, 4)), 2), [DUMMY, (1, 5, 3, 9), (1, 6, 4, 7)]);
    card[16] = 5;
    assert_eq!(ask(&card, look(5, 19)), refused(13));
    assert_eq!(ask(&card, look(5, 20)), refused(4));
}

/// Every bit of the head's bytes 8..11 is the beginning's, and none of 12..15 may be set.
#[test]
fn the_last_bytes_of_the_head() {
    let card = made(&[ROOT], &[&[DOWN], &[DUMMY]]);
    for bit in 0..64 {
        let mut other = card.clone();
        other[8 + bit / 8] |= 1 << (bit % 8);
        if bit < 32 {
            let begin = 1 << bit;
            assert_eq!(ask(&other, look(5, begin - 1)), refused(13), "bit {bit}");
            assert_eq!(ask(&other, look(5, begin)), [0, 5, 0, 0, 2], "bit {bit}");
        } else {
            assert_eq!(ask(&other, look(5, NOW)), refused(1), "bit {bit}");
        }
    }
}
