//! Calls as a race day would bring them, and less likely ones between.

use super::length;
use super::random::Random;
use card_model::call::Call;

/// A shape within the limits: few buckets often, so that cards fill up.
#[derive(Clone, Copy, Debug)]
pub struct Geometry {
    pub buckets: u32,
    pub sectors: u32,
    pub td: u32,
    pub ti: u32,
}

impl Geometry {
    pub fn random(random: &mut Random) -> Geometry {
        let sectors = if random.chance(50) { random.within(4, 8) } else { random.within(4, 32) };
        let buckets = match random.within(0, 99) {
            0..=44 => random.within(2, 16),
            45..=84 => random.within(17, 120),
            85..=97 => random.within(121, 400),
            _ => random.within(401, 4096),
        };
        Geometry::with(random, buckets, sectors)
    }

    /// Thresholds at random, 0 among them.
    pub fn with(random: &mut Random, buckets: u32, sectors: u32) -> Geometry {
        let td = if random.chance(15) { 0 } else { random.within(2, sectors) };
        let ti = if random.chance(15) { 0 } else { random.within(4, sectors) };
        Geometry { buckets, sectors, td, ti }
    }

    pub fn length(&self) -> usize {
        length(self.buckets, self.sectors)
    }

    pub fn format(&self) -> Call {
        Call::Format { buckets: self.buckets, sectors: self.sectors, td: self.td, ti: self.ti }
    }
}

/// Status and time of a result: mostly a time.
pub fn result(random: &mut Random) -> (u32, u32) {
    if random.chance(25) {
        (random.within(1, 3), 0)
    } else {
        (0, random.any())
    }
}

/// Status and time that no result has: a status above 3, or a time beside another status than 0.
pub fn no_result(random: &mut Random) -> (u32, u32) {
    if random.chance(50) {
        (random.of(&[4, 5, 127, 128, 255, 256, 257, 259, 1 << 16, 1 << 24, 1 << 31, u32::MAX]), random.any())
    } else {
        (random.within(1, 3), random.any().max(1))
    }
}

/// How bibs come.
#[derive(Clone, Copy)]
enum Bibs {
    Among(u32, u32),
    Rising,
    Falling,
    Any,
}

/// A source of calls on one card. It remembers the last stamp it used, not what was accepted.
pub struct Day {
    bibs: Bibs,
    strikes: u32,
    questions: u32,
    oddities: u32,
    stamp: u32,
    bib: u32,
}

impl Day {
    pub fn random(random: &mut Random) -> Day {
        let bibs = match random.within(0, 9) {
            0 => Bibs::Rising,
            1 => Bibs::Falling,
            2 => Bibs::Any,
            3 => Bibs::Among(1, 3),
            4 => Bibs::Among(u32::MAX - 12, u32::MAX),
            5..=7 => Bibs::Among(1, 30),
            _ => Bibs::Among(1, 2000),
        };
        Day {
            bibs,
            strikes: random.of(&[0, 5, 20, 50]),
            questions: random.of(&[5, 30]),
            oddities: random.of(&[0, 4]),
            stamp: 0,
            bib: random.of(&[0, 500, 1 << 31]),
        }
    }

    /// The same from a stamp on.
    pub fn after(self, stamp: u32) -> Day {
        Day { stamp, ..self }
    }

    pub fn bib(&mut self, random: &mut Random) -> u32 {
        match self.bibs {
            Bibs::Among(low, high) => random.within(low, high),
            Bibs::Any => random.any(),
            Bibs::Rising | Bibs::Falling if random.chance(15) => random.within(1, 400),
            Bibs::Rising => {
                self.bib = self.bib.wrapping_add(random.within(1, 3));
                self.bib
            }
            Bibs::Falling => {
                self.bib = self.bib.wrapping_sub(random.within(1, 3));
                self.bib
            }
        }
    }

    /// A stamp above the last one used; refused ones leave gaps, as any gap is allowed.
    pub fn fresh_stamp(&mut self, random: &mut Random) -> u32 {
        let step = if random.chance(3) { random.within(1, 1 << 20) } else { random.within(1, 3) };
        self.stamp = self.stamp.saturating_add(step);
        self.stamp
    }

    /// A stamp as a question gives it: now, or any earlier.
    fn asked(&self, random: &mut Random) -> u32 {
        match random.within(0, 3) {
            0 => u32::MAX,
            1 => random.any(),
            _ => random.within(0, self.stamp),
        }
    }

    pub fn write(&mut self, random: &mut Random) -> Call {
        let bib = self.bib(random);
        let at = self.fresh_stamp(random);
        if random.chance(self.strikes) {
            Call::Strike { bib, at }
        } else {
            let (status, time) = result(random);
            Call::Post { bib, at, status, time }
        }
    }

    pub fn question(&mut self, random: &mut Random) -> Call {
        let bib = self.bib(random);
        let at = self.asked(random);
        if random.chance(50) {
            Call::Look { bib, at }
        } else {
            Call::Next { bib: if random.chance(20) { 0 } else { bib }, at }
        }
    }

    /// A call that is likely refused: bib 0, a stale stamp, no status, a second format, a shape off the limits.
    fn oddity(&mut self, random: &mut Random) -> Call {
        let (bib, at) = (self.bib(random), random.within(0, self.stamp));
        match random.within(0, 7) {
            0 => Call::Post { bib: 0, at: random.any(), status: random.any(), time: 1 },
            1 => Call::Strike { bib: 0, at: random.any() },
            2 => Call::Look { bib: 0, at },
            3 => Call::Post { bib, at, status: 0, time: 1 },
            4 => Call::Strike { bib, at },
            5 | 6 => {
                let (status, time) = no_result(random);
                let at = random.of(&[at, self.stamp.saturating_add(1)]);
                Call::Post { bib, at, status, time }
            }
            _ => Call::Format {
                buckets: random.any(),
                sectors: random.any(),
                td: random.any(),
                ti: random.any(),
            },
        }
    }

    pub fn call(&mut self, random: &mut Random) -> Call {
        if random.chance(self.oddities) {
            self.oddity(random)
        } else if random.chance(self.questions) {
            self.question(random)
        } else {
            self.write(random)
        }
    }
}
