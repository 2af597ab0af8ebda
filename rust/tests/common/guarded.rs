//! A card lent from the middle of a larger buffer, at any alignment, with known bytes around it.

const GUARD: usize = 96;

#[derive(Clone)]
pub struct Guarded {
    bytes: Vec<u8>,
    from: usize,
    len: usize,
}

/// The byte that belongs at a place of the guard.
fn guard(place: usize) -> u8 {
    (place as u8).wrapping_mul(89) ^ 0xa5
}

impl Guarded {
    pub fn new(card: &[u8], shift: usize) -> Guarded {
        let from = GUARD + shift;
        let mut bytes: Vec<u8> = (0..from + card.len() + GUARD).map(guard).collect();
        bytes[from..from + card.len()].copy_from_slice(card);
        Guarded { bytes, from, len: card.len() }
    }

    pub fn card(&self) -> &[u8] {
        &self.bytes[self.from..self.from + self.len]
    }

    pub fn card_mut(&mut self) -> &mut [u8] {
        &mut self.bytes[self.from..self.from + self.len]
    }

    /// Whether every byte around the card is as it was.
    pub fn whole(&self) -> bool {
        let end = self.from + self.len;
        let kept =
            |range: std::ops::Range<usize>| range.into_iter().all(|place| self.bytes[place] == guard(place));
        kept(0..self.from) && kept(end..self.bytes.len())
    }
}
