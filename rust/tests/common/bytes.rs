//! A card's bytes for tests that make cards by hand: entries put, sectors and fields picked.

use super::random::Random;

/// Kind, key, stamp, value. A post's status is in the kind's upper byte.
pub type Entry = (u16, u32, u32, u32);

/// The kind of a post with this status.
pub fn post_of(status: u32) -> u16 {
    1 | (status as u16) << 8
}

pub fn put(card: &mut [u8], sector: usize, (kind, key, stamp, value): Entry) {
    let bytes = &mut card[16 * sector..16 * (sector + 1)];
    bytes[..2].copy_from_slice(&kind.to_le_bytes());
    bytes[2..4].fill(0);
    set(bytes, 4, key);
    set(bytes, 8, stamp);
    set(bytes, 12, value);
}

pub fn set(bytes: &mut [u8], from: usize, number: u32) {
    bytes[from..from + 4].copy_from_slice(&number.to_le_bytes());
}

pub fn get(bytes: &[u8], from: usize) -> u32 {
    u32::from_le_bytes(bytes[from..from + 4].try_into().unwrap())
}

/// The head of a card: N, m, TD, TI.
pub fn put_head(card: &mut [u8], buckets: u32, sectors: u32, td: u32, ti: u32) {
    card[..4].copy_from_slice(&[6, sectors as u8, td as u8, ti as u8]);
    set(card, 4, buckets);
}

pub fn first_sector(buckets: u32, sectors: u32, bucket: u32) -> usize {
    (1 + buckets + (bucket - 1) * sectors) as usize
}

/// A sector past the head, written (or blank) if one is soon found.
pub fn pick(card: &[u8], random: &mut Random, written: bool) -> usize {
    let last = card.len() / 16 - 1;
    let mut sector = 1;
    for _ in 0..40 {
        sector = 1 + random.index(last);
        if card[16 * sector..16 * (sector + 1)].iter().any(|&byte| byte != 0) == written {
            break;
        }
    }
    sector
}
