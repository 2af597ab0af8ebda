//! A scroll gives every standing record once, by rising bib, as of any stamp; so does a row of records in a
//! lent buffer.

mod common;

use card::numbers::Tally;
use card::{Record, Refusal, Shape, Status};
use card_model::list::{List, Said};
use common::guarded::Guarded;
use common::mutate::damage;
use common::pair;
use common::random::Random;
use common::{foreign, rounds};

/// The status of each number, written here a second time.
fn status(number: u32) -> Status {
    [Status::Timed, Status::DidNotFinish, Status::Disqualified, Status::DidNotStart][number as usize]
}

/// A card of 200 writes on bibs 1 to 50, and the list of them.
fn grown() -> (Vec<u8>, List) {
    let (mut random, mut list) = (Random::new(11), List::default());
    let shape = Shape::new(200, 6);
    let mut bytes = vec![0; shape.bytes().unwrap()];
    card::format(&mut bytes, shape).unwrap();
    for at in 1..=200 {
        let bib = random.within(1, 50);
        if random.chance(30) && card::strike(&mut bytes, bib, at).is_ok() {
            list.push(Said { bib, at, result: None });
        } else {
            let (status, time) =
                if at % 7 == 0 { (Status::Disqualified, 0) } else { (Status::Timed, 10 * at) };
            card::post(&mut bytes, bib, at, status, time).unwrap();
            list.push(Said { bib, at, result: Some((status.number(), time)) });
        }
    }
    (bytes, list)
}

#[test]
fn as_of_every_stamp() {
    let (bytes, list) = grown();
    for at in 0..=201 {
        let records: Vec<Record> = card::scroll(&bytes, at).map(Result::unwrap).collect();
        let stood = (1..=50).map(|bib| list.look(bib, at)).filter(|said| said.at != 0);
        let expected: Vec<Record> = stood
            .map(|said| Record {
                bib: said.bib,
                at: said.at,
                status: status(said.status),
                time: (said.status == 0).then_some(said.time),
            })
            .collect();
        assert_eq!(records, expected, "as of {at}");
    }
}

/// Damage is told once, after the records before it, and then the scroll is over.
#[test]
fn a_refusal_ends_it() {
    let (mut bytes, _) = grown();
    let whole = card::scroll(&bytes, 200).count();
    let last = bytes.chunks(16).rposition(|sector| sector[0] == 1).unwrap();
    bytes[16 * last + 1] = 1;
    let steps: Vec<_> = card::scroll(&bytes, 200).collect();
    assert!(steps.len() <= whole);
    assert_eq!(steps.iter().filter(|step| step.is_err()).count(), 1);
    assert_eq!(steps.last(), Some(&Err(Refusal::Damage)));
}

/// From above any bib it gives what is left of the whole, and after its end it stays at the end.
#[test]
fn above_every_bib() {
    let (bytes, _) = grown();
    let whole: Vec<Record> = card::scroll(&bytes, 120).map(Result::unwrap).collect();
    for bib in (0..=51).chain([u32::MAX]) {
        let mut rest = card::scroll_above(&bytes, bib, 120);
        let given: Vec<Record> = rest.by_ref().map(Result::unwrap).collect();
        let above: Vec<Record> = whole.iter().copied().filter(|record| record.bib > bib).collect();
        assert_eq!(given, above, "above {bib}");
        assert_eq!((rest.next(), rest.next()), (None, None));
    }
    let mut broken = card::scroll(&bytes[1..], 120);
    assert_eq!((broken.next(), broken.next(), broken.next()), (Some(Err(Refusal::Layout)), None, None));
}

/// What a row of records answers and leaves in the buffer, by the second implementation's next. The head and
/// the beginning are asked first, since a buffer without room asks for no record.
fn row(card: &[u8], bib: u32, at: u32, out: &mut [u8]) -> Tally {
    let state = card_model::state(card);
    if state.code == 1 {
        return Tally { code: 1, count: 0 };
    }
    if at < state.begin {
        return Tally { code: 13, count: 0 };
    }
    let (mut last, mut laid) = (bib, Vec::new());
    for _ in 0..out.len() / 16 {
        let answer = card_model::next(card, last, at);
        if answer.code != 0 {
            return Tally { code: answer.code, count: 0 };
        }
        if answer.bib == 0 {
            break;
        }
        last = answer.bib;
        laid.extend(
            [1 | answer.status << 8, answer.bib, answer.at, answer.time].map(u32::to_le_bytes).concat(),
        );
    }
    out[..laid.len()].copy_from_slice(&laid);
    Tally { code: 0, count: laid.len() / 16 }
}

/// Both on one buffer, every byte compared, those around it too; then the same through the safe function.
fn compared(card: &[u8], bib: u32, at: u32, out: &mut [u8]) -> Tally {
    let before = out.to_vec();
    let mut lent = Guarded::new(out, at as usize % 16);
    let given = card::numbers::records(card, bib, at, lent.card_mut());
    let expected = row(card, bib, at, out);
    assert_eq!((given, lent.card()), (expected, &*out), "above {bib} as of {at}");
    assert!(lent.whole(), "a byte beside the buffer, above {bib} as of {at}");
    as_records(card, bib, at, before, given, out);
    given
}

/// The safe function gives the records of the buffer `left`, or the refusal, and leaves the same bytes.
fn as_records(card: &[u8], bib: u32, at: u32, mut before: Vec<u8>, given: Tally, left: &[u8]) {
    let number = |sector: &[u8], from: usize| u32::from_le_bytes(sector[from..from + 4].try_into().unwrap());
    match card::records(card, bib, at, &mut before) {
        Err(refusal) => assert_eq!(Tally { code: refusal.number(), count: 0 }, given),
        Ok(records) => {
            assert_eq!((0, records.len()), (given.code, given.count));
            let laid = left.chunks(16).take(given.count);
            let expected = laid.map(|s| Record {
                bib: number(s, 4),
                at: number(s, 8),
                status: status(s[1].into()),
                time: (s[1] == 0).then(|| number(s, 12)),
            });
            assert!(records.clone().rev().eq(expected.clone().collect::<Vec<_>>().into_iter().rev()));
            assert!(records.eq(expected));
        }
    }
    assert_eq!(before, left);
}

#[test]
fn in_a_row_from_every_bib() {
    let (bytes, _) = grown();
    for at in [0, 1, 40, 117, 200, u32::MAX] {
        for bib in (0..=51).chain([u32::MAX]) {
            for room in [0, 1, 15, 16, 17, 31, 160, 16 * 60 + 5] {
                compared(&bytes, bib, at, &mut vec![0x5a; room]);
            }
        }
    }
}

/// A broken head is told whatever the room.
#[test]
fn in_a_row_on_no_card() {
    let (bytes, _) = grown();
    for room in [0, 1, 15, 16, 160] {
        for broken in [&bytes[..0], &bytes[..15], &bytes[1..], &bytes[..bytes.len() - 1]] {
            assert_eq!(compared(broken, 0, 200, &mut vec![0x5a; room]), Tally { code: 1, count: 0 });
        }
        assert_eq!(compared(&bytes, u32::MAX, 200, &mut vec![0x5a; room]), Tally { code: 0, count: 0 });
    }
}

/// A refusal on the way leaves the buffer as it was.
#[test]
fn in_a_row_on_cards_not_of_our_making() {
    rounds("rows of records", 6, &[0, 1, 4, 13], |seed| {
        let mut random = Random::new(seed);
        let mut card = foreign::card(&mut random);
        for _ in 0..random.of(&[0, 1, 2]) {
            damage(&mut card, &mut random);
        }
        let mut tally = pair::Tally::default();
        for _ in 0..8 {
            let (bib, room) = (random.of(&[0, 0, 1, 5, 20]), random.within(0, 200));
            let at = if random.chance(50) { u32::MAX } else { random.within(0, 62) };
            let mut out: Vec<u8> = (0..room).map(|_| random.any() as u8).collect();
            tally[compared(&card, bib, at, &mut out).code as usize] += 1;
        }
        tally
    });
}
