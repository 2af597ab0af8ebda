//! Damage: one change to a card's bytes, likely to be one that a rule speaks of.

use super::bytes::{get, pick, post_of, put, set};
use super::random::Random;

/// Changes the card somewhere. It may get another length.
pub fn damage(card: &mut Vec<u8>, random: &mut Random) {
    if card.len() < 48 {
        card.push(random.byte());
        return;
    }
    let written = 16 * pick(card, random, true);
    let blank = 16 * pick(card, random, false);
    let buckets = get(card, 4);
    match random.within(0, 15) {
        0 => card[written + random.index(16)] = random.byte(),
        1 => card[written] = random.of(&[0, 1, 2, 3, 4, 5, 6, 7, 255]),
        2 => card[written + random.of(&[1, 2, 3])] = random.byte(),
        3 => set(card, written + 4, random.any()),
        4 => set(card, written + 8, random.of(&[0, 1, 30, u32::MAX - 1, u32::MAX])),
        5 => set(card, written + 12, random.of(&[0, 1, 2, buckets, buckets.wrapping_add(1), u32::MAX])),
        6 => card[written..written + 16].fill(0),
        7 => card.copy_within(written..written + 16, blank),
        8 => {
            let other = 16 * pick(card, random, true);
            card.copy_within(other..other + 16, written);
        }
        9 => behind_blanks(card, random, blank),
        10 => card[blank + random.within(1, 15) as usize] = random.of(&[1, 128, 255]),
        11 => card[blank] = 255,
        12 => head(card, random),
        13 => log(card, random),
        14 => set(card, written + 12, random.within(1, buckets.clamp(1, 4096))),
        _ => cut(card, random),
    }
}

/// An entry that is sound by itself in a blank sector, mostly after other blanks.
fn behind_blanks(card: &mut [u8], random: &mut Random, blank: usize) {
    let entry = match random.within(0, 3) {
        0 => {
            (post_of(random.within(0, 4)), random.within(1, 40), random.within(1, 60), random.of(&[0, 0, 7]))
        }
        1 => (2, random.within(1, 40), random.within(0, 60), 0),
        2 => (3, random.within(0, 40), random.within(0, 60), random.within(1, 3)),
        _ => (4, 0, random.within(0, 60), random.within(1, 3)),
    };
    put(card, blank / 16, entry);
}

fn head(card: &mut [u8], random: &mut Random) {
    match random.within(0, 5) {
        0 => card[0] = random.of(&[0, 1, 4, 5, 7]),
        1 => card[random.of(&[1, 2, 3])] = random.of(&[0, 1, 2, 3, 4, 5, 32, 33, 255]),
        2 => set(card, 4, random.any()),
        3 => card[8 + random.index(8)] = random.byte(),
        4 => set(card, 8, random.within(0, 62)),
        _ => card[random.index(16)] ^= 1 << random.within(0, 7),
    }
}

/// One of the first log sectors, or all of them: a full log, or one with a hole.
fn log(card: &mut [u8], random: &mut Random) {
    let sectors = (get(card, 4).clamp(1, 4096) as usize).min(card.len() / 16 - 1);
    if random.chance(30) {
        let (hole, root) = (random.index(4 * sectors), get(card, 28));
        for sector in (1..=sectors).filter(|&sector| sector != hole) {
            put(card, sector, (4, 0, random.within(0, 60), root));
        }
        return;
    }
    let sector = 1 + random.index(sectors.min(4));
    let kind = random.of(&[4, 4, 4, 3, 1]);
    put(card, sector, (kind, random.of(&[0, 0, 0, 1]), random.within(0, 60), random.within(0, 4)));
}

/// Another length: a few bytes less or more, or far less.
fn cut(card: &mut Vec<u8>, random: &mut Random) {
    let len = match random.within(0, 2) {
        0 => card.len() - random.within(1, 33) as usize,
        1 => card.len() + random.within(1, 33) as usize,
        _ => random.index(card.len()),
    };
    card.resize(len, 0);
}
