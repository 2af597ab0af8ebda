//! Panel digits at every border of every field.

mod common;

use card_model::call::MODEL;
use common::random::Random;
use common::wrapper::WRAPPER;
use common::LIBRARY;

fn same(time: u32, field: u32) {
    let expected = (MODEL.digits)(time, field);
    for side in [LIBRARY, WRAPPER] {
        assert_eq!((side.digits)(time, field), expected, "digits of {time} in a field of {field}");
    }
}

#[test]
fn every_border() {
    let borders = [0, 10, 100, 1000, 10_000, 60_000, 600_000, 3_600_000, 6_000_000, 35_999_990, 1 << 31];
    let mut times = vec![u32::MAX, u32::MAX - 1];
    for border in borders {
        times.extend((0..25).map(|i: u32| (border + i).wrapping_sub(12)));
    }
    let fields = (0..=10).chain([16, 100, 255, 256, 260, 1 << 16, (1 << 31) + 4, u32::MAX - 1, u32::MAX]);
    for field in fields {
        for &time in &times {
            same(time, field);
        }
    }
}

/// Every minute and second, at the first and last hundredth and the thousandths around them.
#[test]
fn every_second() {
    for second in 0..=6001 {
        for thousandths in [0, 1, 9, 10, 11, 500, 989, 990, 991, 999] {
            for field in 4..=6 {
                same(1000 * second + thousandths, field);
            }
        }
    }
}

#[test]
fn random_times() {
    let mut random = Random::new(9);
    for _ in 0..50_000 {
        let time = if random.chance(50) { random.within(0, 6_100_000) } else { random.any() };
        same(time, random.within(0, 10));
    }
}
