//! One sector of sixteen bytes, and what the table asks of each kind.

pub const SECTOR: usize = 16;

pub type Bytes = [u8; SECTOR];

pub const POST: u32 = 1;
pub const STRIKE: u32 = 2;
pub const INDEX: u32 = 3;
pub const ROOT: u32 = 4;

/// Bytes 0, 2 and 3 of a sector's first word, and byte 1.
const KIND: u32 = 0xffff_00ff;
const STATUS: u32 = 0x0000_ff00;

/// Timed; 1 did not finish, 2 was disqualified, 3 did not start.
pub const TIMED: u32 = 0;
const LAST_STATUS: u32 = 3;

/// The five numbers of a sector. The kind is read with the two zero bytes behind the status, so that one
/// comparison asks for them all; 0 is the kind of a blank, and of nothing else that is sound.
#[derive(Clone, Copy, Debug, PartialEq, Eq)]
pub struct Entry {
    pub kind: u32,
    /// Of a post; 0 in all others.
    pub status: u32,
    pub key: u32,
    pub stamp: u32,
    pub value: u32,
}

impl Entry {
    pub fn of(sector: &Bytes) -> Entry {
        let first = number(sector, 0);
        Entry {
            kind: first & KIND,
            status: (first & STATUS) >> 8,
            key: number(sector, 4),
            stamp: number(sector, 8),
            value: number(sector, 12),
        }
    }

    /// An entry of another kind than a post.
    pub fn without_status(kind: u32, key: u32, stamp: u32, value: u32) -> Entry {
        Entry { kind, status: 0, key, stamp, value }
    }

    /// Status 0 to 3, and the time is 0 unless the status is 0.
    pub fn has_sound_status(&self) -> bool {
        self.status == TIMED || self.status <= LAST_STATUS && self.value == 0
    }

    /// Bib and stamp from 1.
    fn is_sound_post(&self) -> bool {
        self.kind == POST && self.key >= 1 && self.stamp >= 1 && self.has_sound_status()
    }

    /// Bib 0 only with stamp 0, value 0.
    fn is_sound_strike(&self) -> bool {
        self.kind == STRIKE && self.status == 0 && self.value == 0 && (self.key != 0 || self.stamp == 0)
    }

    pub fn is_sound_data(&self) -> bool {
        self.is_sound_post() || self.is_sound_strike()
    }

    /// The value is a bucket of the card.
    pub fn is_sound_index(&self, buckets: u32) -> bool {
        self.kind == INDEX && self.status == 0 && (1..=buckets).contains(&self.value)
    }

    /// Key 0, and the value is a bucket of the card.
    pub fn is_sound_root(&self, buckets: u32) -> bool {
        self.kind == ROOT && self.status == 0 && self.key == 0 && (1..=buckets).contains(&self.value)
    }

    /// Writes the entry over a blank sector.
    pub fn write(&self, sector: &mut Bytes) {
        let (numbers, _) = sector.as_chunks_mut::<4>();
        let first = self.kind | self.status << 8;
        for (bytes, number) in numbers.iter_mut().zip([first, self.key, self.stamp, self.value]) {
            *bytes = number.to_le_bytes();
        }
    }
}

/// A part of the card as its sectors.
pub fn sectors(part: &[u8]) -> &[Bytes] {
    part.as_chunks().0
}

pub fn sectors_mut(part: &mut [u8]) -> &mut [Bytes] {
    part.as_chunks_mut().0
}

/// The 32-bit number at byte `from` of a sector.
pub fn number(sector: &Bytes, from: usize) -> u32 {
    u32::from_le_bytes([sector[from], sector[from + 1], sector[from + 2], sector[from + 3]])
}
