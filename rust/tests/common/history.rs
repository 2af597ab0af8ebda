//! The history of a bib under the library, by its numbers and through the safe function, under the model, and
//! by document 02's words on plain lists. Every byte of the buffer is compared.

use super::bytes::get;
use super::guarded::Guarded;
use super::wrapper::WRAPPER;
use super::LIBRARY;
use card_model::call::{Calls, MODEL};
use card_model::Tally;

/// What a history answers, and the buffer after it.
#[derive(Clone, Debug, PartialEq, Eq)]
pub struct Left {
    pub tally: Tally,
    pub out: Vec<u8>,
}

/// A blank sector, or an entry that keeps its row of the table, other than a root entry.
fn is_sound(sector: &[u8], buckets: u32) -> bool {
    let [key, stamp, value] = [4, 8, 12].map(|from| get(sector, from));
    match sector[..4] {
        [1, status, 0, 0] => key > 0 && stamp > 0 && (status == 0 || status <= 3 && value == 0),
        [2, 0, 0, 0] => value == 0 && (key > 0 || stamp == 0),
        [3, 0, 0, 0] => (1..=buckets).contains(&value),
        _ => sector.iter().all(|&byte| byte == 0),
    }
}

/// The history by the words: all sectors of the bucket area in their order, those of the bib up to the stamp
/// put in order of their stamps, and of one stamp the first.
pub fn by_the_words(card: &[u8], bib: u32, at: u32, out: &[u8]) -> Left {
    let left = |code, count, out: Vec<u8>| Left { tally: Tally { code, count }, out };
    let state = (MODEL.state)(card);
    if state.code == 1 {
        return left(1, 0, out.to_vec());
    }
    if bib == 0 {
        return left(2, 0, out.to_vec());
    }
    if at < state.begin {
        return left(13, 0, out.to_vec());
    }
    let area: Vec<&[u8]> = card.chunks(16).skip(1 + state.buckets as usize).collect();
    if !area.iter().all(|sector| is_sound(sector, state.buckets)) {
        return left(4, 0, out.to_vec());
    }
    let of_bib =
        |sector: &&&[u8]| [1, 2].contains(&sector[0]) && get(sector, 4) == bib && get(sector, 8) <= at;
    let mut said: Vec<&[u8]> = area.iter().filter(of_bib).copied().collect();
    // both keep the order of what is equal
    said.sort_by_key(|sector| get(sector, 8));
    said.dedup_by_key(|sector| get(sector, 8));
    if said.len() > out.len() / 16 {
        return left(15, 0, out.to_vec());
    }
    let laid = said.concat();
    left(0, said.len(), [&laid, &out[laid.len()..]].concat())
}

fn whole(side: &Calls, card: &[u8], bib: u32, at: u32, out: &[u8]) -> Left {
    let mut out = out.to_vec();
    let tally = (side.history)(card, bib, at, &mut out);
    Left { tally, out }
}

/// The library's history on slices with known bytes around each of them, at every alignment in turn.
fn guarded(card: &[u8], bib: u32, at: u32, out: &[u8]) -> Left {
    let shift = (bib ^ at) as usize + out.len();
    let source = Guarded::new(card, shift % 16);
    let mut lent = Guarded::new(out, (shift / 16) % 16);
    let tally = (LIBRARY.history)(source.card(), bib, at, lent.card_mut());
    assert!(source.whole() && source.card() == card, "the card was written");
    assert!(lent.whole(), "a byte beside the buffer was written");
    Left { tally, out: lent.card().to_vec() }
}

/// The history in all ways; they have to leave and answer the same. `out` is what lies there before, and is
/// left so by a refusal.
pub fn compared(card: &[u8], bib: u32, at: u32, out: &[u8]) -> Left {
    let left = guarded(card, bib, at, out);
    let ways = [
        ("the safe function", whole(&WRAPPER, card, bib, at, out)),
        ("the model", whole(&MODEL, card, bib, at, out)),
        ("the words", by_the_words(card, bib, at, out)),
    ];
    for (name, other) in ways {
        assert_eq!(left, other, "{name}, of {bib} as of {at}");
    }
    assert!(left.tally.code == 0 || left.out == out, "a refusal, {}, has written", left.tally.code);
    left
}

/// A buffer for so many entries, with bytes in it that no entry has.
pub fn buffer(entries: usize) -> Vec<u8> {
    vec![0x5a; 16 * entries]
}
