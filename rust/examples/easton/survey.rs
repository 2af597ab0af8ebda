//! Counts a card's buckets as the paper's columns do, from the card's bytes.

use std::collections::BTreeMap;

/// What each post did to data buckets, watched while loading.
pub struct Loaded {
    used: usize,
    /// Data buckets rewritten to two, and to one.
    split: usize,
    copied: usize,
}

/// A formatted card uses two buckets.
impl Default for Loaded {
    fn default() -> Loaded {
        Loaded { used: 2, split: 0, copied: 0 }
    }
}

impl Loaded {
    /// Looks at the buckets that the last post added: its new data buckets are two or one or none.
    pub fn after_a_post(&mut self, card: &[u8]) {
        let added = (self.used + 1..).take_while(|&b| b <= buckets(card) && bucket(card, b)[0] != 0);
        let kinds: Vec<bool> = added.map(|b| is_data(card, b)).collect();
        self.used += kinds.len();
        match kinds.iter().filter(|&&data| data).count() {
            0 => (),
            1 => self.copied += 1,
            _ => self.split += 1,
        }
    }
}

pub struct Survey {
    /// Data buckets that a walk of today can reach.
    pub active: usize,
    pub split: usize,
    pub copied: usize,
    /// All data buckets written.
    pub total: usize,
    /// Index buckets of the second level: the root's fanout.
    pub second: usize,
}

impl Survey {
    /// Distinct entries to a bucket of the second level, on average.
    pub fn fanout(&self) -> f64 {
        self.active as f64 / self.second as f64
    }
}

pub fn of(card: &[u8], loaded: &Loaded) -> Survey {
    let second = children(card, root(card));
    let data: Vec<usize> = second.iter().flat_map(|&b| children(card, b)).collect();
    assert!(second.iter().all(|&b| !is_data(card, b)), "a second level of index");
    assert!(data.iter().all(|&b| is_data(card, b)), "the data level below it");
    let total = (1..=loaded.used).filter(|&b| is_data(card, b)).count();
    let survey = Survey {
        active: data.len(),
        split: loaded.split,
        copied: loaded.copied,
        total,
        second: second.len(),
    };
    // the paper's graph: each split adds one active bucket, each copy none
    assert_eq!(survey.active, survey.split + 1);
    assert_eq!(survey.total, survey.active + survey.split + survey.copied);
    survey
}

fn number(sector: &[u8], from: usize) -> usize {
    u32::from_le_bytes(sector[from..from + 4].try_into().unwrap()) as usize
}

fn buckets(card: &[u8]) -> usize {
    number(card, 4)
}

fn bucket(card: &[u8], bucket: usize) -> &[u8] {
    let bytes = 16 * usize::from(card[1]);
    let from = 16 * (1 + buckets(card)) + (bucket - 1) * bytes;
    &card[from..from + bytes]
}

fn is_data(card: &[u8], number: usize) -> bool {
    matches!(bucket(card, number)[0], 1 | 2)
}

/// The bucket of the last root entry.
fn root(card: &[u8]) -> usize {
    let mut log = card[16..16 * (1 + buckets(card))].chunks(16);
    let last = log.rfind(|sector| sector[0] == 4).expect("a card has a root");
    number(last, 12)
}

/// Where the last copies of an index bucket's keys lead.
fn children(card: &[u8], index: usize) -> Vec<usize> {
    let entries = bucket(card, index).chunks(16).filter(|sector| sector[0] == 3);
    let last: BTreeMap<usize, usize> =
        entries.map(|sector| (number(sector, 4), number(sector, 12))).collect();
    last.into_values().collect()
}
