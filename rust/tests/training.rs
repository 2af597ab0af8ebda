//! The training cards: each made again from its lines by the library and by the model, and held to the
//! stored bytes. Their lines name the threshold that a td of 0 meant when they were stored.

mod common;

use card_model::bench::parse;
use card_model::call::Call;
use common::length;
use common::pair::Pair;

/// Lines and card of each.
const CARDS: [(&str, &str, &[u8]); 3] = [
    ("heats", include_str!("../../training/heats.lines"), include_bytes!("../../training/heats.card")),
    ("split", include_str!("../../training/split.lines"), include_bytes!("../../training/split.card")),
    ("struck", include_str!("../../training/struck.lines"), include_bytes!("../../training/struck.card")),
];

/// The card that the calls make of blank memory, on either side; all of them are accepted.
fn made(format: Call, calls: &[Call]) -> Vec<u8> {
    let Call::Format { buckets, sectors, .. } = format else { panic!("{format:?} comes first") };
    let mut pair = Pair::new(1, vec![0; length(buckets, sectors)]);
    for &call in [format].iter().chain(calls) {
        assert_eq!(pair.call(call).code, 0, "{call:?}");
    }
    pair.card().to_vec()
}

fn calls(lines: &str) -> (Call, Vec<Call>) {
    let mut calls = lines.lines().map(|line| parse(line.as_bytes()).expect(line));
    (calls.next().unwrap(), calls.collect())
}

#[test]
fn made_again_from_their_lines() {
    for (name, lines, card) in CARDS {
        let (format, calls) = calls(lines);
        assert!(made(format, &calls) == card, "{name}");
    }
}

/// With td 0 there would be other buckets.
#[test]
fn other_cards_with_td_0() {
    for (name, lines, card) in CARDS {
        let (format, calls) = calls(lines);
        let Call::Format { buckets, sectors, td, ti } = format else { panic!("{format:?} comes first") };
        assert_eq!(td, 3 * sectors / 4, "{name}");
        let other = made(Call::Format { buckets, sectors, td: 0, ti }, &calls);
        assert!(other[16..] != card[16..], "{name}");
    }
}
