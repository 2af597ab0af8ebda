//! A season copy under the library, by its numbers and through the safe function, under the model, and laid
//! out here once more from the answers of next. Every answer and every byte is compared.

use super::bytes::{first_sector, post_of, put, put_head, set, Entry};
use super::growth::Geometry;
use super::guarded::Guarded;
use super::wrapper::WRAPPER;
use super::{length, LIBRARY};
use card_model::call::{Calls, MODEL};
use card_model::paper::SESSION;

/// What a season copy answers, and the target after it.
#[derive(Clone, Debug, PartialEq, Eq)]
pub struct Left {
    pub code: u32,
    pub target: Vec<u8>,
}

/// The records that the model's next gives one after the other, or its refusal.
pub fn standing(card: &[u8], at: u32) -> Result<Vec<Entry>, u32> {
    let (mut bib, mut records) = (0, Vec::new());
    loop {
        let answer = (MODEL.next)(card, bib, at);
        if answer.code != 0 {
            return Err(answer.code);
        }
        if answer.bib == 0 {
            return Ok(records);
        }
        bib = answer.bib;
        records.push((post_of(answer.status), bib, answer.at, answer.time));
    }
}

/// The buckets of a season card by document 02's words, the root last: entries in parts of floor(3m/4), index
/// levels over them, at least one.
fn buckets(records: Vec<Entry>, at: u32, sectors: u32) -> Vec<Vec<Entry>> {
    let (mut level, mut all) = ([vec![(2, 0, 0, 0)], records].concat(), Vec::new());
    for levels in 0.. {
        let first = all.len() as u32 + 1;
        all.extend(level.chunks(3 * sectors as usize / 4).map(<[Entry]>::to_vec));
        let made = &all[first as usize - 1..];
        if levels > 0 && made.len() == 1 {
            break;
        }
        level = made.iter().zip(first..).map(|(part, bucket)| (3, part[0].1, at, bucket)).collect();
    }
    all
}

/// How many buckets a season card of these records takes.
pub fn needed(records: usize, sectors: u32) -> u32 {
    buckets(vec![(1, 1, 1, 1); records], 0, sectors).len() as u32
}

/// What a season copy leaves and answers by the words, from next's answers.
fn by_the_words(card: &[u8], at: u32, target: &[u8], geometry: Geometry) -> Left {
    let left = |code, target: &[u8]| Left { code, target: target.to_vec() };
    let state = (MODEL.state)(card);
    if state.code == 1 {
        return left(1, target);
    }
    if at < state.begin {
        return left(13, target);
    }
    // the target's 8 and 9 are format's
    let mut formatted = target.to_vec();
    let code = geometry.format().run(&MODEL, &mut formatted).code;
    if code != 0 {
        return left(code, target);
    }
    let [m, td, ti] = [1, 2, 3].map(|place| u32::from(formatted[place]));
    match standing(card, at).map(|records| buckets(records, at, m)) {
        Err(number) => left(number, target),
        Ok(made) if made.len() > geometry.buckets as usize => left(6, target),
        Ok(made) => Left { code: 0, target: laid(&made, at, Geometry { td, ti, ..geometry }) },
    }
}

/// A card of these buckets, the last of them its root.
fn laid(made: &[Vec<Entry>], at: u32, Geometry { buckets, sectors, td, ti }: Geometry) -> Vec<u8> {
    let mut card = vec![0; length(buckets, sectors)];
    put_head(&mut card, buckets, sectors, td, ti);
    set(&mut card, 8, at);
    put(&mut card, 1, (4, 0, at, made.len() as u32));
    for (entries, bucket) in made.iter().zip(1..) {
        for (i, &entry) in entries.iter().enumerate() {
            put(&mut card, first_sector(buckets, sectors, bucket) + i, entry);
        }
    }
    card
}

/// What one side's copy leaves and answers.
pub fn whole(side: &Calls, card: &[u8], at: u32, target: &[u8], geometry: Geometry) -> Left {
    let Geometry { buckets, sectors, td, ti } = geometry;
    let mut target = target.to_vec();
    let code = (side.season)(card, at, &mut target, buckets, sectors, td, ti);
    Left { code, target }
}

/// The library's copy on slices with known bytes around each of them, at every alignment in turn.
fn guarded(card: &[u8], at: u32, target: &[u8], geometry: Geometry) -> Left {
    let Geometry { buckets, sectors, td, ti } = geometry;
    let shift = card.len() / 16 + at as usize;
    let source = Guarded::new(card, shift % 16);
    let mut lent = Guarded::new(target, (shift / 2 + target.len() / 16) % 16);
    let code = (LIBRARY.season)(source.card(), at, lent.card_mut(), buckets, sectors, td, ti);
    assert!(source.whole() && source.card() == card, "the source was written");
    assert!(lent.whole(), "a byte beside the target was written");
    Left { code, target: lent.card().to_vec() }
}

/// The copy in all ways; they have to leave and answer the same. `target` is what lies there before, and is
/// left so by a refusal.
pub fn compared(card: &[u8], at: u32, target: &[u8], geometry: Geometry) -> Left {
    let left = guarded(card, at, target, geometry);
    let ways = [
        ("the safe function", whole(&WRAPPER, card, at, target, geometry)),
        ("the model", whole(&MODEL, card, at, target, geometry)),
        ("the words", by_the_words(card, at, target, geometry)),
    ];
    for (name, other) in ways {
        assert_eq!(left.code, other.code, "answer, {name}, as of {at}, {geometry:?}");
        let place = left.target.iter().zip(&other.target).position(|(one, other)| one != other);
        assert_eq!(place, None, "first other byte, {name}, as of {at}, {geometry:?}");
    }
    assert!(left.code == 0 || left.target == target, "a refusal, {}, has written", left.code);
    left
}

/// The copy onto a blank target of the geometry's length.
pub fn onto_blank(card: &[u8], at: u32, geometry: Geometry) -> Left {
    compared(card, at, &vec![0; geometry.length()], geometry)
}

/// The same, which has to be accepted.
pub fn copy(card: &[u8], at: u32, geometry: Geometry) -> Vec<u8> {
    let Left { code, target } = onto_blank(card, at, geometry);
    assert_eq!(code, 0, "as of {at}, {geometry:?}");
    target
}

/// Document 01's bench session: 3, 5 and 11 stand as of 50, and 8 with them as of 49.
pub fn session() -> Vec<u8> {
    let mut card = vec![0; length(16, 4)];
    for call in SESSION {
        call.run(&LIBRARY, &mut card);
    }
    card
}
