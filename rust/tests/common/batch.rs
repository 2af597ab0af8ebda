//! A batch under the library, by its numbers and through the safe function, and under the model, held to
//! the same calls one by one. Every answer and every byte is compared.

use super::bytes::{get, post_of, put, set, Entry};
use super::growth::Day;
use super::guarded::Guarded;
use super::random::Random;
use super::wrapper::WRAPPER;
use super::LIBRARY;
use card_model::call::{Call, Calls, MODEL};

/// What a batch answers, and the lent bytes after it.
#[derive(Clone, Debug, PartialEq, Eq)]
pub struct Left {
    pub code: u32,
    pub card: Vec<u8>,
    pub answers: Vec<u8>,
}

/// Requests in the sector layout: kind, bib, stamp, value.
pub fn requests(entries: &[Entry]) -> Vec<u8> {
    let mut bytes = vec![0; 16 * entries.len()];
    for (i, &entry) in entries.iter().enumerate() {
        put(&mut bytes, i, entry);
    }
    bytes
}

/// The writes among the calls as requests; another call is none.
pub fn requests_of(calls: &[Call]) -> Vec<u8> {
    let entries: Vec<Entry> = calls.iter().filter_map(|&call| entry(call)).collect();
    requests(&entries)
}

fn entry(call: Call) -> Option<Entry> {
    match call {
        // a request has but a byte for its status
        Call::Post { bib, at, status, time } => Some((post_of(status.min(255)), bib, at, time)),
        Call::Strike { bib, at } => Some((2, bib, at, 0)),
        _ => None,
    }
}

/// A day's writes as requests, and here and there one that is not asked well.
pub fn day(random: &mut Random, day: &mut Day, many: usize) -> Vec<u8> {
    let mut entries = Vec::new();
    while entries.len() < many {
        entries.extend(entry(day.call(random)));
    }
    let mut bytes = requests(&entries);
    spoil_some(&mut bytes, random);
    bytes
}

pub fn spoil_some(requests: &mut [u8], random: &mut Random) {
    for request in requests.chunks_mut(16) {
        if random.chance(5) {
            spoil(request, random);
        }
    }
}

/// Changes a request in a way that 11 or 14 speaks of: a post that becomes a strike mostly has a value.
fn spoil(request: &mut [u8], random: &mut Random) {
    match random.within(0, 3) {
        0 => request[0] = random.of(&[0, 3, 4, 5, 6, 127, 128, 254, 255]),
        1 => request[random.of(&[1, 2, 3])] = random.of(&[1, 2, 128, 255]),
        2 => request[0] = 2,
        _ => {
            request[0] = 2;
            set(request, 12, random.of(&[1, 256, 1 << 16, 1 << 24, u32::MAX]));
        }
    }
}

/// Whether a request answers 11 on what is a card, by document 02's words.
fn is_badly_asked(request: &[u8]) -> bool {
    let other_kind = request[0] != 1 && request[0] != 2;
    let not_zero = request[2..4] != [0, 0];
    let strike_with_more = request[0] == 2 && (request[1] != 0 || request[12..] != [0, 0, 0, 0]);
    other_kind || not_zero || strike_with_more
}

/// The answer to one request by its own call. What is no card answers 1 ahead of all else.
fn one(side: &Calls, card: &mut [u8], request: &[u8]) -> u32 {
    if (side.state)(card).code == 1 {
        return 1;
    }
    if is_badly_asked(request) {
        return 11;
    }
    let [bib, at, time] = [4, 8, 12].map(|from| get(request, from));
    let status = request[1].into();
    let call = if request[0] == 1 { Call::Post { bib, at, status, time } } else { Call::Strike { bib, at } };
    call.run(side, card).code
}

/// What the same calls one by one leave and answer; 12 ahead of them.
pub fn one_by_one(side: &Calls, card: &[u8], requests: &[u8], answers: &[u8]) -> Left {
    let mut left = Left { code: 0, card: card.to_vec(), answers: answers.to_vec() };
    if requests.len() != 16 * answers.len() {
        return Left { code: 12, ..left };
    }
    for (request, answer) in requests.chunks(16).zip(&mut left.answers) {
        *answer = one(side, &mut left.card, request) as u8;
    }
    left
}

/// What one side's batch leaves and answers.
pub fn whole(side: &Calls, card: &[u8], requests: &[u8], answers: &[u8]) -> Left {
    let (mut card, mut answers) = (card.to_vec(), answers.to_vec());
    let code = (side.batch)(&mut card, requests, &mut answers);
    Left { code, card, answers }
}

/// The library's batch on slices with known bytes around each of them, at every alignment in turn.
fn guarded(card: &[u8], requests: &[u8], answers: &[u8]) -> Left {
    let shift = requests.len() / 16 + card.len() / 16;
    let mut lent_card = Guarded::new(card, shift % 16);
    let lent_requests = Guarded::new(requests, (shift / 2) % 16);
    let mut lent_answers = Guarded::new(answers, (shift / 3) % 16);
    let code = (LIBRARY.batch)(lent_card.card_mut(), lent_requests.card(), lent_answers.card_mut());
    assert!(lent_card.whole(), "a byte beside the card was written");
    assert!(lent_answers.whole(), "a byte beside the answers was written");
    assert!(lent_requests.whole() && lent_requests.card() == requests, "a request was written");
    Left { code, card: lent_card.card().to_vec(), answers: lent_answers.card().to_vec() }
}

/// The batch in all ways; they have to leave and answer the same. `answers` is what lies there before.
pub fn compared(card: &[u8], requests: &[u8], answers: &[u8]) -> Left {
    let left = guarded(card, requests, answers);
    let ways = [
        ("the library one by one", one_by_one(&LIBRARY, card, requests, answers)),
        ("the safe function", whole(&WRAPPER, card, requests, answers)),
        ("the model's batch", whole(&MODEL, card, requests, answers)),
        ("the model one by one", one_by_one(&MODEL, card, requests, answers)),
    ];
    for (name, other) in ways {
        assert_eq!((left.code, &left.answers), (other.code, &other.answers), "answers, {name}");
        let place = left.card.iter().zip(&other.card).position(|(one, other)| one != other);
        assert_eq!(place, None, "first other byte of the card, {name}");
    }
    left
}

/// As many answer bytes as there are whole requests, none of them an answer's number.
pub fn blank_answers(requests: &[u8]) -> Vec<u8> {
    vec![0x5a; requests.len() / 16]
}
