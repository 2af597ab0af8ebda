//! The safe functions as a table of calls: what they say in Rust types, turned back into numbers.

use card::{journal, Entry, Look, Record, Refusal, Request, Shape, Status};
use card_model::call::{Calls, JournalCalls};
use card_model::{Answer, Digits, State, Tally};

pub const WRAPPER: Calls = Calls {
    format: |card, buckets, sectors, td, ti| {
        done(card::format(card, Shape::new(buckets, sectors).td(td).ti(ti)))
    },
    // a number that is no status can be asked for by the numbers alone
    post: |card, bib, at, status, time| match status_of(status) {
        Some(status) => done(card::post(card, bib, at, status, time)),
        None => super::answer(card::numbers::post(card, bib, at, status, time)),
    },
    strike: |card, bib, at| done(card::strike(card, bib, at)),
    batch: |card, requests, answers| {
        // bytes that are no row of whole requests can be lent by the numbers alone
        let (sectors, rest) = requests.as_chunks();
        if !rest.is_empty() {
            return card::numbers::batch(card, requests, answers);
        }
        match card::batch(card, sectors, answers) {
            Err(refusal) => refusal.into(),
            Ok(told) => {
                let numbers: Vec<u8> = told.map(|answer| done(answer).code as u8).collect();
                answers.copy_from_slice(&numbers);
                0
            }
        }
    },
    look: |card, bib, at| match card::look(card, bib, at) {
        Ok(Look { record: Some(record), reads }) => Answer { reads, ..found(record) },
        Ok(Look { record: None, reads }) => Answer { bib, reads, ..Answer::ACCEPTED },
        Err(refusal) => refused(refusal),
    },
    next: |card, bib, at| match card::next(card, bib, at) {
        Ok(record) => record.map_or(Answer::ACCEPTED, found),
        Err(refusal) => refused(refusal),
    },
    season: |card, at, target, buckets, sectors, td, ti| {
        done(card::season(card, at, target, Shape::new(buckets, sectors).td(td).ti(ti))).code
    },
    // what the entries say in Rust types is held to the bytes that the call has laid down
    history: |card, bib, at, out| {
        let before = out.to_vec();
        match card::history(card, bib, at, out).map(|said| said.collect::<Vec<_>>()) {
            Err(refusal) => Tally { code: refusal.into(), count: 0 },
            Ok(said) => {
                let bytes: Vec<u8> = said.iter().flat_map(|&entry| sector(entry)).collect();
                assert_eq!(bytes, out[..bytes.len()], "{said:?}");
                assert_eq!(before[bytes.len()..], out[bytes.len()..], "behind the last");
                Tally { code: 0, count: said.len() }
            }
        }
    },
    state: |card| match card::state(card) {
        Ok(card::State { shape: Shape { buckets, sectors, td, ti }, begin, last, used }) => {
            State { code: 0, buckets, sectors, td, ti, begin, last, used }
        }
        Err(refusal) => State { code: refusal.into(), ..State::default() },
    },
    digits: |time, field| match card::digits(time, field) {
        Ok(panel) => {
            assert_eq!(panel.digits(), &panel.places()[..field as usize]);
            Digits { code: 0, places: panel.places() }
        }
        Err(refusal) => Digits { code: refusal.into(), places: [0; 6] },
    },
};

/// The same for the safe functions on a journal.
pub const WRAPPER_JOURNAL: JournalCalls = JournalCalls {
    post: |journal, bib, at, status, time| match status_of(status) {
        Some(status) => done(journal::post(journal, bib, at, status, time)),
        None => super::answer(card::numbers::journal_post(journal, bib, at, status, time)),
    },
    strike: |journal, bib, at| done(journal::strike(journal, bib, at)),
    look: |journal, bib, at| match journal::look(journal, bib, at) {
        Ok(record) => record.map_or(Answer { bib, ..Answer::ACCEPTED }, found),
        Err(refusal) => refused(refusal),
    },
    next: |journal, bib, at| match journal::next(journal, bib, at) {
        Ok(record) => record.map_or(Answer::ACCEPTED, found),
        Err(refusal) => refused(refusal),
    },
};

/// The bytes of an entry.
fn sector(entry: Entry) -> [u8; 16] {
    match entry {
        Entry::Post(Record { bib, at, status, time }) => {
            Request::Post { bib, at, status, time: time.unwrap_or(0) }.sector()
        }
        Entry::Strike { bib, at } => Request::Strike { bib, at }.sector(),
    }
}

fn status_of(number: u32) -> Option<Status> {
    let all = [Status::Timed, Status::DidNotFinish, Status::Disqualified, Status::DidNotStart];
    all.into_iter().find(|status| status.number() == number)
}

fn refused(refusal: Refusal) -> Answer {
    Answer::refused(refusal.into())
}

fn done(answer: Result<(), Refusal>) -> Answer {
    answer.map_or_else(refused, |()| Answer::ACCEPTED)
}

fn found(record: Record) -> Answer {
    let Record { bib, at, status, time } = record;
    assert_eq!(time.is_some(), status == Status::Timed);
    Answer { bib, at, status: status.number(), time: time.unwrap_or(0), ..Answer::ACCEPTED }
}
