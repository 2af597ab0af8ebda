//! The two cards and the journal that docs/FORMAT.md shows: their bytes were written down by hand from the
//! rules. The calls it names leave just these bytes, and its questions have the answers it gives.

use card::{journal, Look, Record, Refusal, Request, Shape, State, Status};

const PAGE: &str = include_str!("../../docs/FORMAT.md");

const SEVEN: Record = Record { bib: 7, at: 100, status: Status::Timed, time: Some(59_990) };
const NINE: Record = Record { bib: 9, at: 130, status: Status::Timed, time: Some(58_120) };
const TWELVE: Record = Record { bib: 12, at: 110, status: Status::Timed, time: Some(61_230) };

/// A line of a dump: its place, of so many digits, and its sixteen bytes. Other lines of the page have no such
/// words.
fn sector(line: &str, digits: usize) -> Option<(usize, Vec<u8>)> {
    let mut words = line.split_whitespace();
    let place = usize::from_str_radix(words.next().filter(|word| word.len() == digits)?, 16).ok()?;
    let bytes: Option<Vec<u8>> = words.take(16).map(|word| u8::from_str_radix(word, 16).ok()).collect();
    bytes.filter(|bytes| bytes.len() == 16).map(|bytes| (place, bytes))
}

/// The page's two cards; place 0 begins one.
fn cards() -> [Vec<u8>; 2] {
    let mut cards: Vec<Vec<u8>> = Vec::new();
    for (place, bytes) in PAGE.lines().filter_map(|line| sector(line, 4)) {
        if place == 0 {
            cards.push(Vec::new());
        }
        let card = cards.last_mut().expect("the first line is at place 0");
        assert_eq!(place, card.len(), "each line begins where the one before it ends");
        card.extend(bytes);
    }
    cards.try_into().expect("the page shows two cards")
}

fn dumped() -> Vec<u8> {
    cards()[0].clone()
}

#[test]
fn the_calls_leave_these_bytes() {
    let shape = Shape::new(4, 4).td(3).ti(4);
    let mut card = vec![0; shape.bytes().unwrap()];
    card::format(&mut card, shape).unwrap();
    card::post(&mut card, 7, 100, Status::Timed, 59_990).unwrap();
    card::post(&mut card, 12, 110, Status::Timed, 61_230).unwrap();
    card::strike(&mut card, 7, 120).unwrap();
    card::post(&mut card, 9, 130, Status::Timed, 58_120).unwrap();
    assert_eq!(card, dumped());
}

/// The same four as one batch.
#[test]
fn one_batch_leaves_these_bytes() {
    let shape = Shape::new(4, 4).td(3).ti(4);
    let mut card = vec![0; shape.bytes().unwrap()];
    card::format(&mut card, shape).unwrap();
    let asked = [
        Request::Post { bib: 7, at: 100, status: Status::Timed, time: 59_990 },
        Request::Post { bib: 12, at: 110, status: Status::Timed, time: 61_230 },
        Request::Strike { bib: 7, at: 120 },
        Request::Post { bib: 9, at: 130, status: Status::Timed, time: 58_120 },
    ];
    let mut numbers = [0x5a; 4];
    card::batch(&mut card, &asked.map(Request::sector), &mut numbers).unwrap();
    assert_eq!((numbers, card), ([0; 4], dumped()));
}

#[test]
fn looks_are_answered_as_the_page_says() {
    let card = dumped();
    for (bib, at, record) in [(7, 115, Some(SEVEN)), (7, 120, None), (7, 130, None), (12, 130, Some(TWELVE))]
    {
        assert_eq!(card::look(&card, bib, at), Ok(Look { record, reads: 2 }), "{bib} as of {at}");
    }
}

#[test]
fn nexts_and_the_post_are_answered_as_the_page_says() {
    let mut card = dumped();
    let asked = [
        (0, 115, Some(SEVEN)),
        (0, 125, Some(TWELVE)),
        (0, 130, Some(NINE)),
        (9, 130, Some(TWELVE)),
        (12, 130, None),
    ];
    for (bib, at, record) in asked {
        assert_eq!(card::next(&card, bib, at), Ok(record), "above {bib} as of {at}");
    }
    assert_eq!(card::post(&mut card, 3, 130, Status::Timed, 1), Err(Refusal::Stamp));
}

#[test]
fn the_card_says_of_itself_what_the_page_says() {
    let shape = Shape { buckets: 4, sectors: 4, td: 3, ti: 4 };
    assert_eq!(card::state(&dumped()), Ok(State { shape, begin: 0, last: 130, used: 4 }));
}

/// Its season card has the page's bytes, says of itself what the page says, and is answered so.
#[test]
fn the_season_card_is_as_the_page_says() {
    let [card, mut season] = cards();
    let shape = Shape::new(3, 4).td(3).ti(4);
    let mut target = vec![0; shape.bytes().unwrap()];
    card::season(&card, 140, &mut target, shape).unwrap();
    assert_eq!(target, season);
    assert_eq!(card::state(&season), Ok(State { shape, begin: 140, last: 140, used: 2 }));
    assert_eq!(card::look(&season, 12, 140), Ok(Look { record: Some(TWELVE), reads: 2 }));
    assert_eq!(card::look(&season, 12, 139), Err(Refusal::TooEarly));
    assert_eq!(card::look(&season, 0, 139), Err(Refusal::NoBib));
    assert_eq!(card::post(&mut season, 7, 140, Status::Timed, 1), Err(Refusal::Stamp));
}

/// The page's journal, whose places have two digits.
fn dumped_journal() -> Vec<u8> {
    let mut journal = Vec::new();
    for (place, bytes) in PAGE.lines().filter_map(|line| sector(line, 2)) {
        assert_eq!(place, journal.len(), "each line begins where the one before it ends");
        journal.extend(bytes);
    }
    assert_eq!(journal.len(), 80, "five sectors");
    journal
}

#[test]
fn the_journal_is_as_the_page_says() {
    let mut journal = vec![0; 80];
    journal::post(&mut journal, 7, 100, Status::Timed, 59_990).unwrap();
    journal::post(&mut journal, 12, 110, Status::Timed, 61_230).unwrap();
    journal::strike(&mut journal, 7, 120).unwrap();
    journal::post(&mut journal, 9, 130, Status::Timed, 58_120).unwrap();
    assert_eq!(journal, dumped_journal());
    for (bib, at, record) in [(7, 115, Some(SEVEN)), (7, 130, None)] {
        assert_eq!(journal::look(&journal, bib, at), Ok(record), "{bib} as of {at}");
    }
    for (bib, at, record) in [(0, 115, Some(SEVEN)), (0, 130, Some(NINE)), (12, 130, None)] {
        assert_eq!(journal::next(&journal, bib, at), Ok(record), "above {bib} as of {at}");
    }
    assert_eq!(journal::strike(&mut journal, 7, 140), Err(Refusal::NothingStands));
    assert_eq!(journal::post(&mut journal, 3, 130, Status::Timed, 1), Err(Refusal::Stamp));
    assert_eq!(journal, dumped_journal());
    assert_eq!(journal::post(&mut journal, 3, 140, Status::Timed, 1), Ok(()));
    assert_eq!(journal::post(&mut journal, 4, 150, Status::Timed, 1), Err(Refusal::Full));
}
