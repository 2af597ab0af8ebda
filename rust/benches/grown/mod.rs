//! A card to measure on: random posts and corrections until half its buckets are used.
#![allow(dead_code)] // each benchmark takes what it wants of this

use crate::common::bytes::get;
use crate::common::growth::Geometry;
use crate::common::random::Random;
use card_model::call::MODEL;

pub struct Grown {
    pub geometry: Geometry,
    pub card: Vec<u8>,
    /// The last stamp used; every stamp from 1 was.
    pub stamp: u32,
    /// The bibs that stand, in order.
    pub bibs: Vec<u32>,
}

impl Grown {
    /// Every bib is posted about twice, and one in twenty struck.
    pub fn new(geometry: Geometry) -> Grown {
        let mut random = Random::new(2024);
        let mut card = vec![0; geometry.length()];
        geometry.format().run(&MODEL, &mut card);
        let most_bibs = geometry.buckets * geometry.sectors / 10;
        let mut stamp = 0;
        while !past_half(&card, geometry) {
            let bib = random.within(1, most_bibs);
            stamp += 1;
            if random.chance(5) && (MODEL.strike)(&mut card, bib, stamp).code == 0 {
                continue;
            }
            assert_eq!((MODEL.post)(&mut card, bib, stamp, 0, stamp).code, 0, "half a card is not full");
        }
        let bibs = standing(&card);
        Grown { geometry, card, stamp, bibs }
    }
}

/// Whether the bucket in the middle has been written.
fn past_half(card: &[u8], geometry: Geometry) -> bool {
    let Geometry { buckets, sectors, .. } = geometry;
    get(card, 16 * (1 + buckets + buckets / 2 * sectors) as usize) != 0
}

fn standing(card: &[u8]) -> Vec<u32> {
    let mut bibs = Vec::new();
    loop {
        let answer = (MODEL.next)(card, bibs.last().copied().unwrap_or(0), u32::MAX);
        if answer.bib == 0 {
            return bibs;
        }
        bibs.push(answer.bib);
    }
}
