//! No call allocates, neither the library's nor the second implementation's: what is timed against each
//! other in `benches/speed.rs` is the rules and no heap.

mod common;

use card_model::call::{Call, Calls, JournalCalls, MODEL, MODEL_JOURNAL};
use common::batch;
use common::growth::{Day, Geometry};
use common::pair::Tally;
use common::random::Random;
use common::{length, LIBRARY, LIBRARY_JOURNAL};
use std::alloc::{GlobalAlloc, Layout, System};
use std::cell::Cell;
use std::hint::black_box;

/// The system's allocator, which counts what each thread asks of it.
struct Counting;

thread_local! {
    static ASKED: Cell<u64> = const { Cell::new(0) };
}

// Each request is handed on as it came.
unsafe impl GlobalAlloc for Counting {
    unsafe fn alloc(&self, layout: Layout) -> *mut u8 {
        ASKED.with(|asked| asked.set(asked.get() + 1));
        unsafe { System.alloc(layout) }
    }

    unsafe fn dealloc(&self, place: *mut u8, layout: Layout) {
        unsafe { System.dealloc(place, layout) }
    }
}

#[global_allocator]
static COUNTING: Counting = Counting;

/// How often the heap is asked for bytes while `work` runs.
fn asked<T>(work: impl FnOnce() -> T) -> (T, u64) {
    let before = ASKED.get();
    let done = work();
    (done, ASKED.get() - before)
}

#[test]
fn the_count_counts() {
    assert_eq!(asked(|| black_box(vec![0u8; 8])).1, 1);
    assert_eq!(asked(|| [0u8; 8]).1, 0);
}

/// Days on cards that fill up, and what is answered by number.
fn days(side: &Calls) -> Tally {
    let mut tally = Tally::default();
    for seed in 1..=60 {
        let mut random = Random::new(seed);
        let mut geometry = Geometry::random(&mut random);
        geometry.buckets = geometry.buckets.min(60);
        let mut card = vec![0; geometry.length()];
        let mut day = Day::random(&mut random);
        let first = [Call::Look { bib: 1, at: 1 }, geometry.format(), geometry.format()];
        let calls = first.into_iter().chain((0..400).map(|_| day.call(&mut random)));
        for call in calls {
            let (answer, count) = asked(|| call.run(side, &mut card));
            assert_eq!(count, 0, "{call:?}, answered {answer:?}");
            tally[answer.code as usize] += 1;
        }
    }
    tally
}

/// Batches on cards that fill up, on one that is damaged and on none; what is answered by number.
fn batches(side: &Calls) -> Tally {
    let mut tally = Tally::default();
    for seed in 1..=20 {
        let mut random = Random::new(seed);
        let mut geometry = Geometry::random(&mut random);
        geometry.buckets = geometry.buckets.min(20);
        let mut card = vec![0; geometry.length()];
        geometry.format().run(side, &mut card);
        let mut day = Day::random(&mut random);
        for byte in [None, None, Some(16), Some(0)] {
            // the log's first entry is of no kind, then the head
            byte.into_iter().for_each(|place: usize| card[place] = 7);
            let requests = batch::day(&mut random, &mut day, 100);
            let mut answers = [0; 100];
            let (code, count) = asked(|| (side.batch)(&mut card, &requests, &mut answers));
            assert_eq!((code, count), (0, 0));
            assert_eq!(asked(|| (side.batch)(&mut card, &requests[1..], &mut answers)), (12, 0));
            answers.iter().for_each(|&answer| tally[answer as usize] += 1);
        }
    }
    tally
}

/// Season copies of cards that filled up, to targets that suit and others; what is answered by number.
fn seasons(side: &Calls) -> Tally {
    let mut tally = Tally::default();
    for seed in 1..=40 {
        let mut random = Random::new(seed);
        let mut geometry = Geometry::random(&mut random);
        geometry.buckets = geometry.buckets.min(40);
        let mut card = vec![0; geometry.length()];
        geometry.format().run(side, &mut card);
        let mut day = Day::random(&mut random);
        for _ in 0..100 {
            day.write(&mut random).run(side, &mut card);
        }
        // the beginning, then the log's first entry of no kind, then the head
        for (place, byte) in [(8, 0), (8, 2), (16, 7), (0, 7)] {
            card[place] = byte;
            for (buckets, blank, at) in [(40, 0, 2), (2, 0, u32::MAX), (40, 1, 2), (1, 0, 2), (40, 0, 1)] {
                let mut target = vec![blank; length(buckets, 5)];
                let copied = || (side.season)(&card, at, &mut target, buckets, 5, 0, 0);
                let (code, count) = asked(copied);
                assert_eq!(count, 0, "answered {code}");
                tally[code as usize] += 1;
            }
        }
    }
    tally
}

/// Days on journals that fill up, and on slices that are none; what is answered by number.
fn journals(side: &JournalCalls) -> Tally {
    let mut tally = Tally::default();
    for seed in 1..=40 {
        let mut random = Random::new(seed);
        let mut journal = vec![0; 16 * random.within(0, 200) as usize + usize::from(seed % 10 == 0)];
        let mut day = Day::random(&mut random);
        let calls = (0..400).map(|_| day.call(&mut random));
        for call in calls.filter(|call| !matches!(call, Call::Format { .. })) {
            let (answer, count) = asked(|| call.run_on_journal(side, &mut journal));
            assert_eq!(count, 0, "{call:?}, answered {answer:?}");
            tally[answer.code as usize] += 1;
        }
    }
    tally
}

/// Histories on cards that filled up, in buffers that suffice and others, and on what is no card; by number.
fn histories(side: &Calls) -> Tally {
    let mut tally = Tally::default();
    for seed in 1..=20 {
        let mut random = Random::new(seed);
        let mut card = vec![0; length(40, 5)];
        (side.format)(&mut card, 40, 5, 0, 0);
        for at in 1..=90 {
            (side.post)(&mut card, random.within(1, 3), at, 0, at);
        }
        // the beginning, then the last sector of no kind, then the head
        let last = card.len() - 16;
        for (place, byte) in [(8, 0), (8, 2), (last, 7), (0, 7)] {
            card[place] = byte;
            for (bib, at, room) in [(1, u32::MAX, 1600), (1, u32::MAX, 15), (0, 2, 0), (2, 1, 1600)] {
                let mut out = vec![0; room];
                let (given, count) = asked(|| (side.history)(&card, bib, at, &mut out));
                assert_eq!(count, 0, "answered {given:?}");
                tally[given.code as usize] += 1;
            }
        }
    }
    tally
}

#[test]
fn no_history_of_either_allocates() {
    for side in [LIBRARY, MODEL] {
        let tally = histories(&side);
        for number in [0, 1, 2, 4, 13, 15] {
            assert!(tally[number] > 0, "no history was answered {number}");
        }
    }
}

#[test]
fn no_call_on_a_journal_allocates() {
    for side in [LIBRARY_JOURNAL, MODEL_JOURNAL] {
        let tally = journals(&side);
        for number in [0, 1, 2, 3, 5, 6, 14] {
            assert!(tally[number] > 0, "no call on a journal was answered {number}");
        }
    }
}

#[test]
fn no_season_of_either_allocates() {
    for side in [LIBRARY, MODEL] {
        let tally = seasons(&side);
        for number in [0, 1, 4, 6, 8, 9, 13] {
            assert!(tally[number] > 0, "no copy was answered {number}");
        }
    }
}

#[test]
fn no_batch_of_either_allocates() {
    for side in [LIBRARY, MODEL] {
        let tally = batches(&side);
        for number in [0, 1, 2, 3, 4, 5, 6, 11, 14] {
            assert!(tally[number] > 0, "no request was answered {number}");
        }
    }
}

#[test]
fn no_call_of_either_allocates() {
    for side in [LIBRARY, MODEL] {
        let tally = days(&side);
        for number in [0, 1, 2, 3, 5, 6, 8, 9, 14] {
            assert!(tally[number] > 0, "no call was answered {number}");
        }
        assert_eq!(asked(|| (side.state)(&[0; 16])).1, 0);
        for field in 0..=7 {
            assert_eq!(asked(|| (side.digits)(59_999, field)).1, 0);
        }
    }
}
