//! A foreign card of many index levels, each led to by key 0.

use super::bytes::{first_sector, put, put_head};
use super::length;

pub const BUCKETS: u32 = 4096;
pub const SECTORS: u32 = 4;

pub fn first(bucket: u32) -> usize {
    first_sector(BUCKETS, SECTORS, bucket)
}

/// `levels` index buckets, each led to by key 0 and holding `written(level)` copies of key 0, and
/// below them a full data bucket. With `keys`, the copies have keys 0, 1, 2, .. in their stead, so
/// that the bucket is rewritten to two.
pub fn card(levels: u32, written: impl Fn(u32) -> u32, keys: bool) -> Vec<u8> {
    let mut card = vec![0; length(BUCKETS, SECTORS)];
    put_head(&mut card, BUCKETS, SECTORS, 3, 4);
    put(&mut card, 1, (4, 0, 0, 1));
    for level in 1..=levels {
        for i in 0..written(level) {
            let key = if keys { 10 * i } else { 0 };
            put(&mut card, first(level) + i as usize, (3, key, i, level + 1));
        }
    }
    let data = first(levels + 1);
    put(&mut card, data, (2, 0, 0, 0));
    for i in 1..SECTORS {
        put(&mut card, data + i as usize, (1, 1, i, 100));
    }
    card
}
