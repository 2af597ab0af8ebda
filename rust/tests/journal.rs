//! The plain journal: by hand, beside the card and the plain list until one of them is full, and on any bytes.

mod common;

use card_model::call::Call;
use card_model::list::List;
use card_model::Answer;
use common::bytes::{post_of, put, set};
use common::growth::{result, Day, Geometry};
use common::journal::{journal, spoil, JournalPair};
use common::listed::said;
use common::pair::{is_question, Pair};
use common::random::Random;
use common::rounds;

const NOW: u32 = u32::MAX;

/// Four entries and two blanks: bib 5 is corrected, bib 8 is struck.
fn four() -> Vec<u8> {
    journal(6, &[(1, 8, 10, 61230), (1, 5, 20, 60000), (1, 5, 30, 59990), (2, 8, 40, 0)])
}

/// Each call once, likely accepted where the slice is a journal: the bib stands, the stamp is above.
const EACH: [Call; 4] = [
    Call::Post { bib: 5, at: NOW - 1, status: 0, time: 1 },
    Call::Strike { bib: 5, at: NOW },
    Call::Look { bib: 5, at: NOW },
    Call::Next { bib: 0, at: NOW },
];

/// Whether the slice is a journal, by the four calls, which have to agree on it.
fn is_journal(slice: &[u8]) -> bool {
    let refused = EACH.map(|call| JournalPair::new(7, slice.to_vec()).call(call).code == 1);
    assert!(refused.iter().all(|&one| one == refused[0]), "{refused:?} on {slice:?}");
    !refused[0]
}

// By hand.

#[test]
fn entries_in_arrival_order() {
    let mut pair = JournalPair::new(1, vec![0; 96]);
    for call in [
        Call::Post { bib: 8, at: 10, status: 0, time: 61230 },
        Call::Post { bib: 5, at: 20, status: 0, time: 60000 },
        Call::Post { bib: 5, at: 30, status: 0, time: 59990 },
        Call::Strike { bib: 8, at: 40 },
    ] {
        assert_eq!(pair.call(call), Answer::ACCEPTED);
    }
    assert_eq!(pair.bytes(), four());
    assert_eq!(pair.bytes()[..16], [1, 0, 0, 0, 8, 0, 0, 0, 10, 0, 0, 0, 0x2e, 0xef, 0, 0]);
    assert_eq!(pair.bytes()[48..64], [2, 0, 0, 0, 8, 0, 0, 0, 40, 0, 0, 0, 0, 0, 0, 0]);
}

#[test]
fn looks_and_nexts() {
    let mut pair = JournalPair::new(2, four());
    let record = |bib, at, time| Answer { bib, at, time, ..Answer::ACCEPTED };
    let (old, new, eight) = (record(5, 20, 60000), record(5, 30, 59990), record(8, 10, 61230));
    for (bib, at, answer) in [
        (8, 9, record(8, 0, 0)),
        (8, 10, eight),
        (8, 39, eight),
        (8, 40, record(8, 0, 0)),
        (5, 19, record(5, 0, 0)),
        (5, 29, old),
        (5, NOW, new),
        (6, NOW, record(6, 0, 0)),
    ] {
        assert_eq!(pair.call(Call::Look { bib, at }), answer, "{bib} as of {at}");
    }
    for (bib, at, answer) in [
        (0, 9, Answer::ACCEPTED),
        (0, 19, eight),
        (0, 20, old),
        (5, 39, eight),
        (5, 40, Answer::ACCEPTED),
        (0, NOW, new),
        (NOW, NOW, Answer::ACCEPTED),
    ] {
        assert_eq!(pair.call(Call::Next { bib, at }), answer, "above {bib} as of {at}");
    }
}

/// Each refusal where all that come after it would be given too; and what is refused leaves every byte.
#[test]
fn refusals_in_order() {
    let full = journal(2, &[(1, 8, 10, 1), (1, 5, 20, 2)]);
    let mut broken = full.clone();
    broken[1] = 1;
    let code = |slice: &[u8], call| {
        let mut pair = JournalPair::new(3, slice.to_vec());
        let answer = pair.call(call);
        assert_eq!((answer, pair.bytes()), (Answer::refused(answer.code), slice), "{call:?}");
        answer.code
    };
    for (slice, bib, at, number) in
        [(&broken, 0, 20, 1), (&full, 0, 20, 2), (&full, 7, 20, 3), (&full, 7, 21, 5), (&full, 5, 21, 6)]
    {
        assert_eq!(code(slice, Call::Strike { bib, at }), number);
        let for_a_post = if number == 5 { 6 } else { number };
        assert_eq!(code(slice, Call::Post { bib, at, status: 0, time: 9 }), for_a_post);
    }
    assert_eq!(code(&broken, Call::Look { bib: 0, at: 0 }), 1);
    assert_eq!(code(&full, Call::Look { bib: 0, at: 0 }), 2);
    assert_eq!(code(&broken, Call::Next { bib: 0, at: 0 }), 1);
    assert_eq!(code(&full, Call::Post { bib: 7, at: 0, status: 0, time: 9 }), 3);
}

/// 6 exactly when no blank sector is left. An empty slice has none: a journal, and full.
#[test]
fn full() {
    for sectors in 0..=5 {
        let mut pair = JournalPair::new(4, vec![0; 16 * sectors]);
        assert_eq!(pair.call(Call::Post { bib: 7, at: 0, status: 0, time: 9 }).code, 3);
        for at in 1..=8 {
            let expected = if at as usize <= sectors { 0 } else { 6 };
            assert_eq!(
                pair.call(Call::Post { bib: 7, at, status: 0, time: at }).code,
                expected,
                "{at} of {sectors}"
            );
        }
        let last = Answer { bib: 7, at: sectors as u32, time: sectors as u32, ..Answer::ACCEPTED };
        assert_eq!(pair.call(Call::Look { bib: 7, at: NOW }), last);
        let strike = if sectors == 0 { 5 } else { 6 };
        assert_eq!(pair.call(Call::Strike { bib: 7, at: 9 }).code, strike);
    }
}

/// The largest stamp closes a journal, though it has blanks.
#[test]
fn closed_by_the_last_stamp() {
    let mut pair = JournalPair::new(5, four());
    assert_eq!(pair.call(Call::Post { bib: 1, at: NOW, status: 0, time: 3 }).code, 0);
    assert_eq!(pair.call(Call::Post { bib: 1, at: NOW, status: 0, time: 3 }).code, 3);
    assert_eq!(pair.call(Call::Look { bib: 1, at: NOW - 1 }).at, 0);
    assert_eq!(pair.call(Call::Look { bib: 1, at: NOW }).at, NOW);
}

// What a journal is, sentence by sentence.

fn changed(change: impl FnOnce(&mut Vec<u8>)) -> bool {
    let mut slice = four();
    change(&mut slice);
    is_journal(&slice)
}

#[test]
fn whole_sectors_of_any_number() {
    for len in 0..=200 {
        assert_eq!(is_journal(&vec![0; len]), len % 16 == 0, "{len} blank bytes");
    }
    for len in 0..=160 {
        let mut slice = four();
        slice.resize(len, 0);
        assert_eq!(is_journal(&slice), len % 16 == 0, "cut to {len}");
    }
}

#[test]
fn kinds() {
    for kind in 0..=255 {
        assert_eq!(changed(|slice| slice[16] = kind), kind == 1, "of a post");
        // a post of time 0 is one
        assert_eq!(changed(|slice| slice[48] = kind), kind == 1 || kind == 2, "of a strike");
        assert_eq!(changed(|slice| slice[64] = kind), kind == 0, "of a blank");
    }
}

#[test]
fn bytes_that_are_zero() {
    for (sector, place) in [(0, 2), (0, 3), (3, 1), (3, 2), (3, 3)] {
        for byte in 1..=255 {
            assert!(!changed(|slice| slice[16 * sector + place] = byte), "byte {place} of sector {sector}");
        }
    }
    for place in 64..96 {
        for byte in [1, 2, 128, 255] {
            assert!(!changed(|slice| slice[place] = byte), "byte {place}, which is blank");
        }
    }
}

#[test]
fn bibs_and_values() {
    assert!(!changed(|slice| set(slice, 4, 0)), "a post of bib 0");
    assert!(!changed(|slice| set(slice, 52, 0)), "a strike of bib 0");
    assert!(!changed(|slice| put(slice, 0, (2, 0, 0, 0))), "the card's dummy");
    assert!(changed(|slice| set(slice, 4, NOW)), "the largest bib");
    for value in [1, 1 << 8, 1 << 16, 1 << 24] {
        assert!(!changed(|slice| set(slice, 60, value)), "a strike with a value");
        assert!(changed(|slice| set(slice, 12, value)), "a post with any time");
    }
}

#[test]
fn stamps_rise_from_one() {
    for (stamps, rises) in [
        ([1, 2, 3, 4], true),
        ([0, 2, 3, 4], false),
        ([1, 2, 2, 4], false),
        ([1, 3, 2, 4], false),
        ([1, 2, 3, 3], false),
        ([2, 1, 3, 4], false),
        ([1, 1000, 1 << 31, NOW], true),
        ([NOW, 1, 2, 3], false),
        ([1, 2, NOW, NOW], false),
        ([255, 256, 65535, 65536], true),
        ([256, 255, 65536, 65537], false),
    ] {
        let with = |slice: &mut Vec<u8>| (0..4).for_each(|i| set(slice, 16 * i + 8, stamps[i]));
        assert_eq!(changed(with), rises, "{stamps:?}");
    }
}

#[test]
fn a_run_then_blanks() {
    for sector in 0..4 {
        assert_eq!(
            changed(|slice| slice[16 * sector..16 * sector + 16].fill(0)),
            sector == 3,
            "{sector} blank"
        );
    }
    assert!(changed(|slice| put(slice, 4, (1, 9, 50, 1))));
    assert!(!changed(|slice| put(slice, 5, (1, 9, 50, 1))), "behind a blank");
}

/// Whether a stored strike struck something is not judged, nor is the second of two.
#[test]
fn strikes_of_nothing() {
    let slice = journal(4, &[(2, 3, 1, 0), (1, 5, 2, 77), (2, 3, 3, 0)]);
    assert!(is_journal(&slice));
    let mut pair = JournalPair::new(6, slice);
    assert_eq!(pair.call(Call::Look { bib: 3, at: NOW }), Answer { bib: 3, ..Answer::ACCEPTED });
    assert_eq!(pair.call(Call::Next { bib: 0, at: NOW }).bib, 5);
    assert_eq!(pair.call(Call::Strike { bib: 3, at: 4 }).code, 5);
    assert_eq!(pair.call(Call::Post { bib: 3, at: 4, status: 0, time: 1 }).code, 0);
}

// Random sequences.

/// A call of the day; a journal has no format.
fn call(day: &mut Day, random: &mut Random) -> Call {
    loop {
        let call = day.call(random);
        if !matches!(call, Call::Format { .. }) {
            return call;
        }
    }
}

/// An accepted write changes the first blank sector and no other byte.
fn written_once(before: &[u8], after: &[u8]) {
    let sector = before.chunks(16).position(|sector| sector == [0; 16]).expect("it had a blank");
    assert_eq!(before[..16 * sector], after[..16 * sector]);
    assert_ne!(before[16 * sector..16 * sector + 16], after[16 * sector..16 * sector + 16]);
    assert_eq!(before[16 * sector + 16..], after[16 * sector + 16..]);
}

/// A fresh format and a blank slice, through the same calls until either has answered 6: the card's answers but
/// for the reads. Both are held to the plain list too.
#[test]
fn beside_a_card() {
    let (mut by_card, mut by_journal) = (0, 0);
    rounds("journal beside a card", 15, &[0, 2, 3, 5, 6, 14], |seed| {
        let mut random = Random::new(seed);
        let mut geometry = Geometry::random(&mut random);
        geometry.buckets = geometry.buckets.min(200);
        let mut card = Pair::formatted(seed, geometry);
        let sectors = random.of(&[0, 1, 7, 40, 300, 1000]);
        let mut journal = JournalPair::new(seed, vec![0; 16 * sectors]);
        let (mut day, mut list) = (Day::random(&mut random), List::default());
        for _ in 0..random.of(&[60, 600]) {
            let call = call(&mut day, &mut random);
            let before = journal.bytes().to_vec();
            let (one, other) = (card.call(call), journal.call(call));
            by_card += u32::from(one.code == 6);
            by_journal += u32::from(other.code == 6);
            if one.code == 6 || other.code == 6 {
                break;
            }
            if other != (Answer { reads: 0, ..one }) {
                journal.differs(call, &format!("journal {other:?}, card {one:?}"));
            }
            agrees_with(&list, &journal, call, other);
            if !is_question(call) && other.code == 0 {
                written_once(&before, journal.bytes());
                list.push(said(call));
            }
        }
        journal.tally
    });
    assert!(by_card > 0 && by_journal > 0, "each was full first: {by_card}, {by_journal}");
}

fn agrees_with(list: &List, journal: &JournalPair, call: Call, answer: Answer) {
    let expected = match call {
        Call::Look { bib, at } if bib > 0 => list.look(bib, at),
        Call::Next { bib, at } => list.next(bib, at),
        _ => return,
    };
    if answer != expected {
        journal.differs(call, &format!("journal {answer:?}, plain list {expected:?}"));
    }
}

/// Journals filled to the last sector and beyond.
#[test]
fn beyond_full() {
    rounds("full journals", 10, &[0, 2, 3, 5, 6, 14], |seed| {
        let mut random = Random::new(seed);
        let sectors = random.within(0, 60) as usize;
        let mut pair = JournalPair::new(seed, vec![0; 16 * sectors]);
        let mut day = Day::random(&mut random);
        for _ in 0..150 {
            let call = call(&mut day, &mut random);
            let blank = pair.bytes().chunks(16).any(|sector| sector == [0; 16]);
            let answer = pair.call(call);
            if answer.code == 6 && blank {
                pair.differs(call, "6 with a blank sector");
            }
            if answer.code == 0 && !is_question(call) && !blank {
                pair.differs(call, "accepted without a blank sector");
            }
        }
        pair.tally
    });
}

/// Slices that others wrote, or nobody: journals with bytes changed, cut, and noise.
#[test]
fn any_bytes() {
    rounds("any bytes as journals", 15, &[0, 1, 2, 3, 5, 6, 14], |seed| {
        let mut random = Random::new(seed);
        let mut slice = some_bytes(&mut random);
        let stamp = random.of(&[0, 100, 3000]);
        let mut day = Day::random(&mut random).after(stamp);
        for _ in 0..random.of(&[0, 1, 1, 2]) {
            spoil(&mut slice, &mut random);
        }
        let mut pair = JournalPair::new(seed, slice);
        for _ in 0..25 {
            pair.call(call(&mut day, &mut random));
        }
        pair.tally
    });
}

/// A journal with rising stamps, gaps among them, mostly; else noise.
fn some_bytes(random: &mut Random) -> Vec<u8> {
    let mut slice = vec![0; 16 * random.within(0, 40) as usize];
    if random.chance(5) {
        slice.iter_mut().for_each(|byte| *byte = random.byte());
        return slice;
    }
    let mut stamp = 0;
    for i in 0..random.within(0, slice.len() as u32 / 16) as usize {
        stamp += random.of(&[1, 1, 2, 50]);
        let bib = random.within(1, 12);
        let (status, time) = result(random);
        let entry = if random.chance(25) { (2, bib, stamp, 0) } else { (post_of(status), bib, stamp, time) };
        put(&mut slice, i, entry);
    }
    slice
}
