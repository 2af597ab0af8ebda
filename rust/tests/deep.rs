//! A foreign card of thousands of index levels, under a stack of 1 MiB.

mod common;

use card_model::call::Call;
use common::bytes::put;
use common::deep::{self, first, SECTORS};
use common::pair::Pair;
use std::thread;

/// The answer numbers of a look, a post of `bib`, a look and a next on the card.
fn on_a_small_stack(card: Vec<u8>, bib: u32) -> [u32; 4] {
    let calls = move || {
        let mut pair = Pair::new(0, card);
        [
            pair.call(Call::Look { bib: 1, at: u32::MAX }).code,
            pair.call(Call::Post { bib, at: 50, status: 0, time: 3 }).code,
            pair.call(Call::Look { bib, at: 50 }).code,
            pair.call(Call::Next { bib, at: u32::MAX }).code,
        ]
    };
    thread::Builder::new().stack_size(1 << 20).spawn(calls).unwrap().join().unwrap()
}

#[test]
fn refused_where_every_level_is_full() {
    assert_eq!(on_a_small_stack(deep::card(2048, |_| 4, false), 1), [0, 6, 0, 0]);
}

/// 2,047 levels and the data bucket are rewritten to the other 2,048 buckets, the last one the root.
/// A bib that splits the data bucket is one bucket too many.
#[test]
fn accepted_where_it_just_fits() {
    assert_eq!(on_a_small_stack(deep::card(2047, |_| 4, false), 1), [0, 0, 0, 0]);
    assert_eq!(on_a_small_stack(deep::card(2047, |_| 4, false), 2), [0, 6, 0, 0]);
}

/// 2,048 levels, all full but the uppermost three.
#[test]
fn accepted_where_an_upper_level_has_room() {
    let written = |level| if level <= 3 { 2 } else { 4 };
    assert_eq!(on_a_small_stack(deep::card(2048, written, false), 1), [0, 0, 0, 0]);
    assert_eq!(on_a_small_stack(deep::card(2048, written, false), 2), [0, 0, 0, 0]);
}

/// Each level splits in two, and none has room for two pairs. 1,364 levels and the data bucket take
/// two each and the new root one, which is all that is left. The keys from 10 lead to a bucket with
/// another header, which a next finds.
#[test]
fn levels_that_split() {
    assert_eq!(on_a_small_stack(deep::card(1364, |_| 4, true), 2), [0, 0, 0, 4]);
    assert_eq!(on_a_small_stack(deep::card(1365, |_| 4, true), 2), [0, 6, 0, 4]);
    assert_eq!(on_a_small_stack(deep::card(1364, |_| 3, true), 2), [0, 0, 0, 4]);
}

/// Paths of every length about which an implementation might keep the first buckets only.
#[test]
fn short_paths_of_every_length() {
    for levels in 1..=70 {
        assert_eq!(on_a_small_stack(deep::card(levels, |_| 4, false), 1), [0, 0, 0, 0]);
        assert_eq!(on_a_small_stack(deep::card(levels, |_| 4, true), 2), [0, 0, 0, 4]);
    }
}

/// A path may have N buckets if the last is data; N buckets without data are damage.
#[test]
fn the_longest_path() {
    assert_eq!(on_a_small_stack(deep::card(4095, |_| 1, false), 1), [0, 6, 0, 0]);
    let mut card = deep::card(4095, |_| 1, false);
    for i in 0..SECTORS as usize {
        put(&mut card, first(4096) + i, (3, 0, 0, 1));
    }
    assert_eq!(on_a_small_stack(card, 1), [4, 4, 4, 4]);
}
