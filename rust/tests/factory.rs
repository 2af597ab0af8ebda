//! The factory script: what a maker of controllers runs on each at the end of its assembly, and the answers
//! it is held to. It names the threshold that a td of 0 meant when its answers were stored.

mod common;

use card_model::bench::Bench;
use card_model::call::{Calls, MODEL};
use common::wrapper::WRAPPER;
use common::LIBRARY;

const LINES: &str = include_str!("../../crates/factory/stdin");
const ANSWERS: &str = include_str!("../../crates/factory/stdout");

fn answers(calls: &Calls, lines: &str) -> String {
    Bench::new(calls).session(lines.as_bytes())
}

#[test]
fn every_side_gives_the_stored_answers() {
    for calls in [MODEL, LIBRARY, WRAPPER] {
        assert_eq!(answers(&calls, LINES), ANSWERS);
    }
}

/// With td 0 the card is full at another post, and looks read another number of buckets.
#[test]
fn other_answers_with_td_0() {
    let default = LINES.replace("td=3", "td=0");
    for calls in [MODEL, LIBRARY, WRAPPER] {
        let other = answers(&calls, &default);
        let differs = |part: fn(&str) -> &str| ANSWERS.lines().map(part).ne(other.lines().map(part));
        assert!(differs(|line| line.split(' ').next().unwrap()), "codes");
        assert!(differs(|line| line.rsplit(' ').next().unwrap()), "reads");
    }
}
