//! Slices of every length: blank, of noise, and cards cut short or too long.

mod common;

use card_model::call::Call;
use common::batch;
use common::growth::Geometry;
use common::length;
use common::pair::Pair;
use common::random::Random;
use common::season;

/// Each call once, on a slice that is most likely no card.
fn every_call(pair: &mut Pair) {
    batch::compared(pair.card(), &batch::requests(&[(1, 5, 1000, 1), (2, 5, 1001, 0)]), &[0x5a; 2]);
    // from the slice, and onto it
    let (card, geometry) = (pair.card().to_vec(), Geometry { buckets: 3, sectors: 5, td: 0, ti: 0 });
    season::onto_blank(&card, 49, geometry);
    season::compared(&season::session(), 49, &card, geometry);
    pair.call(Call::Post { bib: 5, at: 1000, status: 0, time: 1 });
    pair.call(Call::Strike { bib: 8, at: 1001 });
    pair.call(Call::Look { bib: 8, at: 49 });
    pair.call(Call::Next { bib: 0, at: u32::MAX });
    pair.call(Call::Format { buckets: 2, sectors: 4, td: 0, ti: 0 });
    pair.call(Call::Look { bib: 8, at: 49 });
}

#[test]
fn blank() {
    for len in 0..=1200 {
        every_call(&mut Pair::new(len as u64, vec![0; len]));
    }
}

#[test]
fn noise() {
    let mut random = Random::new(3);
    for len in 0..=1200 {
        let card = (0..len).map(|_| random.byte()).collect();
        every_call(&mut Pair::new(len as u64, card));
    }
}

/// A sound card of 8 buckets of 4 sectors, 656 bytes, cut or lengthened to each length.
#[test]
fn cut_and_lengthened() {
    let mut whole = Pair::new(0, vec![0; length(8, 4)]);
    whole.call(Call::Format { buckets: 8, sectors: 4, td: 3, ti: 4 });
    for (bib, at) in [(8, 10), (3, 20), (11, 30), (5, 40)] {
        assert_eq!(whole.call(Call::Post { bib, at, status: 0, time: 61230 }).code, 0);
    }
    for len in 0..=900 {
        let mut card = whole.card().to_vec();
        card.resize(len, 0);
        let mut pair = Pair::new(len as u64, card);
        let answer = pair.call(Call::Look { bib: 8, at: 49 });
        assert_eq!(answer.code == 0, len == length(8, 4), "{len}");
        every_call(&mut pair);
    }
}

/// Every shape around the limits, on a card of just its length and one sector off.
#[test]
fn shapes_around_the_limits() {
    for buckets in [0, 1, 2, 3, 4095, 4096, 4097, u32::MAX] {
        for sectors in [0, 3, 4, 5, 31, 32, 33, 255, 256, 260, u32::MAX] {
            let wanted = (sectors as usize).saturating_add(1).saturating_mul(buckets as usize);
            let len = 16 * (1 + wanted.min(4097 * 34));
            let large = wanted > 1000;
            for td in [0, 1, 2, sectors.wrapping_sub(1), sectors, sectors.wrapping_add(1), 256, u32::MAX] {
                for ti in [0, 3, 4, sectors, sectors.wrapping_add(1), 260] {
                    if large && (td, ti) != (0, 0) && (td, ti) != (sectors, sectors) && (td, ti) != (2, 4) {
                        continue;
                    }
                    format_twice(len, Geometry { buckets, sectors, td, ti });
                }
            }
        }
    }
}

/// On a blank card, on the card it left, on a longer one, and on cards with one byte not zero.
fn format_twice(len: usize, geometry: Geometry) {
    let mut pair = Pair::new(1, vec![0; len]);
    pair.call(geometry.format());
    pair.call(geometry.format());
    Pair::new(2, vec![0; len + 16]).call(geometry.format());
    for place in [0, len / 2, len - 1] {
        let mut card = vec![0; len];
        card[place] = 1;
        Pair::new(3, card).call(geometry.format());
    }
}

/// Lengths that a product in 32 bits would mistake for a card's.
#[test]
fn lengths_that_wrap() {
    for (buckets, sectors) in
        [(1 << 28, 15), (1 << 31, 1), (1 << 30, 3), (u32::MAX, u32::MAX), (1 << 24, 255)]
    {
        for len in [0, 16, 32] {
            let mut pair = Pair::new(4, vec![0; len]);
            assert_eq!(pair.call(Call::Format { buckets, sectors, td: 2, ti: 4 }).code, 8);
        }
    }
}
