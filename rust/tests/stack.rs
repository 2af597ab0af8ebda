//! No call takes more stack than include/card.h says, on cards of ours and on any.

mod common;

use card_model::call::{Call, MODEL, MODEL_JOURNAL};
use common::bytes::get;
use common::growth::Geometry;
use common::journal::journal;
use common::{batch, deep, length, stack, LIBRARY, LIBRARY_JOURNAL};

const HEADER: &str = include_str!("../../include/card.h");

/// A number that the header defines.
fn said(name: &str) -> usize {
    let defined = |line: &str| line.strip_prefix("#define ")?.strip_prefix(name)?.trim().parse().ok();
    HEADER.lines().find_map(defined).expect("the header defines it")
}

/// A full card of ours with a tall tree, and the card and call that gave it its last root: a post that
/// rewrote every level.
fn tall() -> (Vec<u8>, Vec<u8>, Call) {
    let geometry = Geometry { buckets: 4096, sectors: 4, td: 2, ti: 4 };
    let mut card = vec![0; geometry.length()];
    geometry.format().run(&MODEL, &mut card);
    let (mut roots, mut last) = (1, None);
    for at in 1.. {
        let (before, call) = (card.clone(), Call::Post { bib: at, at, status: 0, time: 1 });
        if call.run(&MODEL, &mut card).code != 0 {
            break;
        }
        if get(&card, 16 * (1 + roots)) != 0 {
            roots += 1;
            last = Some((before, call));
        }
    }
    let (before, call) = last.expect("a root was rewritten");
    (card, before, call)
}

/// A batch that has the post among its requests, accepted.
#[test]
fn a_batch_on_cards_of_ours() {
    let (_, before, rewrites) = tall();
    let taken = of_batch(&before, rewrites);
    assert!(taken <= said("CARD_STACK_OURS"), "a batch with {rewrites:?} takes {taken}");
}

/// The most that a batch of two takes on a copy of the card: the post, before and behind one that is refused,
/// since a first request may go another way than the others.
fn of_batch(card: &[u8], post: Call) -> usize {
    let refused = Call::Post { bib: 0, at: 1, status: 0, time: 1 };
    let taken = [([post, refused], [0, 2]), ([refused, post], [2, 0])].map(|(calls, expected)| {
        let (requests, mut copy, mut answers) = (batch::requests_of(&calls), card.to_vec(), [0x5a; 2]);
        let taken = stack::on_a_thread(|| assert_eq!((LIBRARY.batch)(&mut copy, &requests, &mut answers), 0));
        assert_eq!(answers, expected);
        taken
    });
    taken.into_iter().max().expect("two ways")
}

#[test]
fn on_cards_of_ours() {
    let (full, before, rewrites) = tall();
    let now = u32::MAX;
    assert!((MODEL.look)(&full, 1, now).reads >= 10, "a tall tree");
    let most = said("CARD_STACK_OURS");
    let blank = vec![0; full.len()];
    let calls = [
        (&blank, Call::Format { buckets: 4096, sectors: 4, td: 2, ti: 4 }),
        (&before, rewrites),
        (&full, Call::Post { bib: 1, at: now, status: 0, time: 1 }),
        (&full, Call::Strike { bib: 1, at: now }),
        (&full, Call::Look { bib: 1, at: now }),
        (&full, Call::Next { bib: 1, at: now }),
    ];
    for (card, call) in calls {
        let taken = stack::of_call(LIBRARY, card, call);
        assert!(taken <= most, "{call:?} takes {taken}");
    }
    let state = stack::on_a_thread(|| assert_eq!((LIBRARY.state)(&full).code, 0));
    assert!(state <= most, "state takes {state}");
    let mut page = [0; 16 * 20];
    let records =
        stack::on_a_thread(|| assert_eq!(card::numbers::records(&full, 0, now, &mut page).count, 20));
    assert!(records <= most && stack::of_digits(LIBRARY) <= most, "records take {records}");
}

/// A history of more entries than are gathered at once, on a card of ours with nothing blank but its end.
#[test]
fn a_history() {
    let geometry = Geometry { buckets: 400, sectors: 4, td: 2, ti: 4 };
    let mut card = vec![0; geometry.length()];
    geometry.format().run(&MODEL, &mut card);
    for at in 1..=300 {
        assert_eq!((MODEL.post)(&mut card, 7, at, 0, at).code, 0);
    }
    let mut out = vec![0; 16 * 300];
    let taken = stack::on_a_thread(|| assert_eq!((LIBRARY.history)(&card, 7, 300, &mut out).count, 300));
    assert!(taken <= said("CARD_STACK_OURS"), "a history takes {taken}");
}

/// What a season copy to the largest card of this geometry takes; it has to be accepted.
fn of_season(card: &[u8], sectors: u32) -> usize {
    let mut target = vec![0; length(4096, sectors)];
    stack::on_a_thread(|| assert_eq!((LIBRARY.season)(card, u32::MAX, &mut target, 4096, sectors, 0, 0), 0))
}

#[test]
fn a_season_of_cards_of_ours_and_any() {
    let (full, _, _) = tall();
    let longest = deep::card(4095, |_| 1, false);
    for sectors in [4, 32] {
        let [ours, any] = [&full, &longest].map(|card| of_season(card, sectors));
        assert!(ours <= said("CARD_STACK_OURS"), "a season of ours takes {ours}");
        assert!(any <= said("CARD_STACK_ANY"), "a season of any takes {any}");
    }
}

/// The most buckets that a write can rewrite: half of all, since each takes a fresh one.
#[test]
fn on_any_card() {
    let most = said("CARD_STACK_ANY");
    let (post, look) = (Call::Post { bib: 1, at: 50, status: 0, time: 3 }, Call::Look { bib: 1, at: 50 });
    let full = deep::card(2047, |_| 4, false);
    let split = deep::card(1364, |_| 4, true);
    let longest = deep::card(4095, |_| 1, false);
    let next = Call::Next { bib: 0, at: 50 };
    for (card, call) in [
        (&full, post),
        (&split, Call::Post { bib: 2, at: 50, status: 0, time: 3 }),
        (&longest, look),
        (&longest, next),
    ] {
        assert_eq!(call.run(&MODEL, &mut card.to_vec()).code, 0, "{call:?}");
        let taken = stack::of_call(LIBRARY, card, call);
        assert!(taken <= most, "{call:?} takes {taken}");
    }
    let batch = of_batch(&full, post);
    assert!(batch <= most, "a batch with {post:?} takes {batch}");
}

/// A long journal of bibs that are all struck but for the last, so that a next has to pass over them.
#[test]
fn on_journals() {
    let most = said("CARD_STACK_OURS");
    let entries = (1..=400).flat_map(|bib| [(1, bib, 2 * bib - 1, 7), (2, bib, 2 * bib, 0)]);
    let mut entries: Vec<_> = entries.collect();
    entries.push((1, 401, 900, 7));
    let long = journal(1000, &entries);
    let (bib, at) = (401, u32::MAX);
    for call in [
        Call::Post { bib, at, status: 0, time: 1 },
        Call::Strike { bib, at },
        Call::Look { bib, at },
        Call::Next { bib: 0, at },
    ] {
        assert_eq!(call.run_on_journal(&MODEL_JOURNAL, &mut long.clone()).code, 0, "{call:?}");
        let taken = stack::of_journal_call(LIBRARY_JOURNAL, &long, call);
        assert!(taken <= most, "{call:?} on a journal takes {taken}");
    }
}
