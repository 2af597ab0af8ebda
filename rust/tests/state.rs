//! What a card that is opened again says of itself: its numbers by hand, and the same as the refusals go by.

mod common;

use card_model::call::{Call, MODEL};
use card_model::paper::SESSION;
use card_model::State;
use common::bytes::{first_sector, put, put_head, set, Entry};
use common::growth::{Day, Geometry};
use common::mutate::damage;
use common::pair::Tally;
use common::random::Random;
use common::wrapper::WRAPPER;
use common::{foreign, length, rounds, LIBRARY};

/// The state that both sides and the safe function give.
fn state(card: &[u8]) -> State {
    let state = (LIBRARY.state)(card);
    assert_eq!((state, state), ((MODEL.state)(card), (WRAPPER.state)(card)));
    state
}

/// A state of eight buckets of four sectors, TD 3, TI 4.
fn eight(last: u32, used: u32) -> State {
    State { code: 0, buckets: 8, sectors: 4, td: 3, ti: 4, begin: 0, last, used }
}

/// The card of `eight` with these entries, by bucket and sector, and one more root stamped 500.
fn made(entries: &[(u32, usize, Entry)]) -> Vec<u8> {
    let mut card = vec![0; length(8, 4)];
    put_head(&mut card, 8, 4, 3, 4);
    put(&mut card, 1, (4, 0, 0, 1));
    put(&mut card, 2, (4, 0, 500, 1));
    for &(bucket, sector, entry) in entries {
        put(&mut card, first_sector(8, 4, bucket) + sector, entry);
    }
    card
}

/// After each line of the session: stamps 10 to 40, the split at 40 into buckets 3 and 4, the strike at 50;
/// questions and a refused post change nothing.
#[test]
fn through_the_session() {
    let mut card = vec![0; length(16, 4)];
    let expected =
        [(0, 2), (10, 2), (20, 2), (30, 2), (40, 4), (50, 4), (50, 4), (50, 4), (50, 4), (50, 4), (50, 4)];
    for (call, (last, used)) in SESSION.into_iter().zip(expected) {
        call.run(&LIBRARY, &mut card);
        assert_eq!(
            state(&card),
            State { code: 0, buckets: 16, sectors: 4, td: 3, ti: 4, begin: 0, last, used }
        );
    }
    let said = card::state(&card).unwrap();
    assert_eq!((said.fresh_buckets(), said.next_stamp()), (12, Some(51)));
}

/// Stamps count in every bucket sector with a kind, damaged or out of reach; not in the log, and not beside
/// kind 0, which uses its bucket all the same.
#[test]
fn on_cards_made_by_hand() {
    assert_eq!(state(&made(&[])), eight(0, 0));
    assert_eq!(state(&made(&[(1, 0, (3, 0, 7, 2))])), eight(7, 1));
    assert_eq!(state(&made(&[(1, 0, (3, 0, 7, 2)), (5, 3, (9, 0, 99, 0))])), eight(99, 5));
    assert_eq!(state(&made(&[(1, 0, (3, 0, 7, 2)), (8, 3, (0, 0, 99, 0))])), eight(7, 8));
    assert_eq!(state(&made(&[(2, 1, (255, 0, u32::MAX, 0))])), eight(u32::MAX, 2));
    let mut begun = made(&[(1, 0, (3, 0, 7, 2))]);
    set(&mut begun, 8, 0x0403_0201);
    assert_eq!(state(&begun), State { begin: 0x0403_0201, ..eight(7, 1) });
    let closed = card::state(&made(&[(2, 1, (1, 1, u32::MAX, 0))])).unwrap();
    assert_eq!((closed.next_stamp(), closed.fresh_buckets()), (None, 6));
}

#[test]
fn of_no_card() {
    let refused = State { code: 1, ..State::default() };
    let card = made(&[]);
    for len in 0..card.len() {
        assert_eq!(state(&card[..len]), refused, "{len}");
    }
    for (place, byte) in [(0, 5), (1, 3), (1, 33), (2, 0), (2, 5), (3, 3), (4, 1), (12, 1), (15, 255)] {
        let mut broken = card.clone();
        broken[place] = byte;
        assert_eq!(state(&broken), refused, "byte {place} = {byte}");
    }
}

/// On a card of ours `last` is the last accepted stamp.
#[test]
fn on_cards_of_ours() {
    for seed in 1..=200 {
        let mut random = Random::new(seed);
        let mut geometry = Geometry::random(&mut random);
        geometry.buckets = geometry.buckets.min(60);
        let mut card = vec![0; geometry.length()];
        geometry.format().run(&LIBRARY, &mut card);
        let (mut day, mut last) = (Day::random(&mut random), 0);
        for _ in 0..60 {
            let call = day.call(&mut random);
            let code = call.run(&LIBRARY, &mut card).code;
            if let (Call::Post { at, .. } | Call::Strike { at, .. }, 0) = (call, code) {
                last = at;
            }
            assert_eq!(state(&card).last, last, "seed {seed}, {call:?}");
        }
    }
}

/// On any card, refusal 3 is given up to `last` and not above it, and fresh buckets come above `used`.
#[test]
fn as_the_refusals_go_by() {
    rounds("states", 3, &[0, 3, 6], |seed| {
        let mut random = Random::new(seed);
        let mut card = foreign::card(&mut random);
        for _ in 0..random.of(&[0, 0, 1, 2]) {
            damage(&mut card, &mut random);
        }
        let State { code, buckets, sectors, last, used, .. } = state(&card);
        let mut tally = Tally::default();
        tally[code as usize] += 1;
        if code != 0 {
            return tally;
        }
        let mut post = |at| (LIBRARY.post)(&mut card, random.within(1, 30), at, 0, 1).code;
        assert_eq!(post(last), 3, "seed {seed}");
        tally[3] += 1;
        if let Some(above) = last.checked_add(1) {
            let answer = post(above);
            assert_ne!(answer, 3, "seed {seed}");
            tally[answer as usize] += 1;
            fresh_from(&card, used, buckets, sectors);
        }
        tally
    });
}

/// Above the buckets that were used before a post lie those it took, one after the other.
fn fresh_from(card: &[u8], used: u32, buckets: u32, sectors: u32) {
    let written = |bucket: &u32| {
        let from = 16 * first_sector(buckets, sectors, *bucket);
        card[from..from + 16].iter().any(|&byte| byte != 0)
    };
    let taken: Vec<u32> = (used + 1..=buckets).filter(written).collect();
    let in_a_row: Vec<u32> = (used + 1..).take(taken.len()).collect();
    assert_eq!(taken, in_a_row);
    assert_eq!(state(card).used, used + taken.len() as u32);
}
