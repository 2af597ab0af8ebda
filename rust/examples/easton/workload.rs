//! The two workloads that the paper describes well enough to make again.

use crate::random::Random;

#[derive(Clone, Copy)]
pub enum Workload {
    /// Three copies of each of 1000 keys.
    Uniform,
    /// The i-th most frequent key comes 349/i times, rounded down, for i to 175; 1078 more keys
    /// come once. These are the 1253 distinct keys and 3000 entries of Table 1.
    Zipf,
}

impl Workload {
    pub fn name(self) -> &'static str {
        match self {
            Workload::Uniform => "Uniform",
            Workload::Zipf => "Zipf",
        }
    }

    /// The 3000 keys in random order. Only the order of keys counts on a card, so they are 1, 2,
    /// 3 and on; which of them is frequent is random.
    pub fn keys(self, random: &mut Random) -> Vec<u32> {
        let appearances: Vec<u32> = match self {
            Workload::Uniform => vec![3; 1000],
            Workload::Zipf => (1..=175).map(|i| 349 / i).chain([1; 1078]).collect(),
        };
        let mut names: Vec<u32> = (1..=appearances.len() as u32).collect();
        shuffle(&mut names, random);
        let mut keys: Vec<u32> =
            names.iter().zip(appearances).flat_map(|(&name, times)| vec![name; times as usize]).collect();
        assert_eq!(keys.len(), 3000);
        shuffle(&mut keys, random);
        keys
    }
}

fn shuffle(keys: &mut [u32], random: &mut Random) {
    for i in 1..keys.len() {
        keys.swap(i, random.index(i + 1));
    }
}
