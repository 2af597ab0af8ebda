//! How many bytes of stack each call takes.
//!
//! `cargo bench --bench stack` prints them.

#[path = "../tests/common/mod.rs"]
mod common;
mod grown;

use card_model::call::{Call, MODEL, MODEL_JOURNAL};
use common::growth::Geometry;
use common::journal::journal;
use common::{batch, deep, stack, LIBRARY, LIBRARY_JOURNAL};
use grown::Grown;

fn row(what: &str, card: &[u8], call: Call, code: u32) {
    assert_eq!(call.run(&MODEL, &mut card.to_vec()).code, code, "{what}");
    let [library, rust] = [LIBRARY, MODEL].map(|side| stack::of_call(side, card, call));
    println!("| {what} | {library} | {rust} |");
}

fn journal_row(what: &str, journal: &[u8], call: Call) {
    assert_eq!(call.run_on_journal(&MODEL_JOURNAL, &mut journal.to_vec()).code, 0, "{what}");
    let sides = [LIBRARY_JOURNAL, MODEL_JOURNAL];
    let [library, rust] = sides.map(|side| stack::of_journal_call(side, journal, call));
    println!("| {what} | {library} | {rust} |");
}

/// A batch of the posts, each of which is accepted.
fn batch_row(what: &str, card: &[u8], posts: &[Call]) {
    let requests = batch::requests_of(posts);
    let [library, rust] = [LIBRARY, MODEL].map(|side| {
        let (mut copy, mut answers) = (card.to_vec(), vec![0x5a; posts.len()]);
        let taken = stack::on_a_thread(|| assert_eq!((side.batch)(&mut copy, &requests, &mut answers), 0));
        assert!(answers.iter().all(|&answer| answer == 0), "{what}: {answers:?}");
        taken
    });
    println!("| {what} | {library} | {rust} |");
}

/// A season copy to a card of this geometry, accepted.
fn season_row(what: &str, card: &[u8], geometry: Geometry) {
    let Geometry { buckets, sectors, td, ti } = geometry;
    let [library, rust] = [LIBRARY, MODEL].map(|side| {
        let mut target = vec![0; geometry.length()];
        let copied = || assert_eq!((side.season)(card, u32::MAX, &mut target, buckets, sectors, td, ti), 0);
        stack::on_a_thread(copied)
    });
    println!("| {what} | {library} | {rust} |");
}

/// A post that rewrites at least a data bucket: the first bib from 1 whose post takes a fresh bucket.
fn splitting(grown: &Grown) -> Call {
    let post = |bib| Call::Post { bib, at: grown.stamp + 1, status: 0, time: 1 };
    let changed = |call: &Call| {
        let mut copy = grown.card.clone();
        call.run(&MODEL, &mut copy);
        copy.chunks(16).zip(grown.card.chunks(16)).filter(|(new, old)| new != old).count() > 1
    };
    (1..).map(post).find(changed).expect("some bucket is full")
}

fn main() {
    let grown = Grown::new(Geometry { buckets: 819, sectors: 4, td: 3, ti: 0 });
    let (bib, at) = (grown.bibs[grown.bibs.len() / 2], grown.stamp + 1);
    println!("| call | library, bytes of stack | Rust, bytes of stack |");
    println!("|---|---|---|");
    println!("| nothing | {0} | {0} |", stack::on_a_thread(|| ()));
    row("format", &vec![0; grown.card.len()], grown.geometry.format(), 0);
    row("look", &grown.card, Call::Look { bib, at }, 0);
    row("next", &grown.card, Call::Next { bib, at }, 0);
    row("post", &grown.card, Call::Post { bib, at, status: 0, time: 1 }, 0);
    row("post that rewrites", &grown.card, splitting(&grown), 0);
    row("strike", &grown.card, Call::Strike { bib, at }, 0);
    let posts: Vec<Call> =
        (0..100).map(|i| Call::Post { bib: 1 + 3 * i, at: at + i, status: 0, time: 1 }).collect();
    batch_row("batch of a post", &grown.card, &[Call::Post { bib, at, status: 0, time: 1 }]);
    batch_row("batch of 100 posts, some of which rewrite", &grown.card, &posts);
    season_row("season", &grown.card, grown.geometry);
    let mut out = vec![0; 16 * 1000];
    let [library, rust] = [LIBRARY, MODEL].map(|side| {
        stack::on_a_thread(|| assert_eq!((side.history)(&grown.card, bib, u32::MAX, &mut out).code, 0))
    });
    println!("| history | {library} | {rust} |");
    println!("| digits | {} | {} |", stack::of_digits(LIBRARY), stack::of_digits(MODEL));
    let entries: Vec<_> = (1..=400).map(|bib| (1, bib, bib, 7)).collect();
    // above every stamp of the slice
    let (slice, now) = (journal(500, &entries), u32::MAX);
    journal_row("journal: post", &slice, Call::Post { bib: 9, at: now, status: 0, time: 1 });
    journal_row("journal: strike", &slice, Call::Strike { bib: 9, at: now });
    journal_row("journal: look", &slice, Call::Look { bib: 9, at: now });
    journal_row("journal: next", &slice, Call::Next { bib: 9, at: now });
    let levels = deep::card(2047, |_| 4, false);
    row("look, 2,047 index levels", &levels, Call::Look { bib: 1, at }, 0);
    season_row("season, 2,047 index levels", &levels, grown.geometry);
    let rewriting = Call::Post { bib: 1, at, status: 0, time: 1 };
    row("post that rewrites 2,048 buckets", &levels, rewriting, 0);
    batch_row("batch of that post", &levels, &[rewriting]);
}
