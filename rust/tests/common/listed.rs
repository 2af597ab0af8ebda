//! A card's answers held to the plain list of what was said on it.

use super::pair::Pair;
use card_model::call::Call;
use card_model::list::{List, Said};
use card_model::Answer;

/// The entry that an accepted write adds to the list.
pub fn said(call: Call) -> Said {
    match call {
        Call::Post { bib, at, status, time } => Said { bib, at, result: Some((status, time)) },
        Call::Strike { bib, at } => Said { bib, at, result: None },
        _ => unreachable!("only writes are said"),
    }
}

/// The stamps around each accepted one, and the bibs around each bib, each once.
pub fn asked(list: &List) -> (Vec<u32>, Vec<u32>) {
    let around = |number: u32| [number.saturating_sub(1), number, number.saturating_add(1)];
    let each = |of: fn(&Said) -> u32| {
        let mut all: Vec<u32> = list.entries().iter().flat_map(|said| around(of(said))).collect();
        all.extend([0, 1, u32::MAX]);
        all.sort_unstable();
        all.dedup();
        all
    };
    (each(|said| said.at), each(|said| said.bib))
}

/// Looks and nexts as of `at` for each of the bibs, against the list.
pub fn against_the_list(pair: &mut Pair, list: &List, at: u32, bibs: &[u32]) {
    for &bib in bibs {
        let next = Call::Next { bib, at };
        let answer = pair.call(next);
        pair.expect(next, answer, list.next(bib, at), "plain list");
        if bib > 0 {
            let look = Call::Look { bib, at };
            let answer = pair.call(look);
            pair.expect(look, Answer { reads: 0, ..answer }, list.look(bib, at), "plain list");
        }
    }
}
