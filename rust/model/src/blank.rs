//! Long stretches of blank sectors, asked for zeros many bytes at a time.

use crate::sector::{Bytes, SECTOR};

/// How many sectors are asked for zeros at one go: enough that the end of each go costs little
/// beside its bytes, and few enough to stop early.
const WIDE: usize = 32;

/// Whether every byte of the sectors is zero.
pub fn all_blank(sectors: &[Bytes]) -> bool {
    let (wide, rest) = sectors.as_chunks::<WIDE>();
    wide.iter().all(wide_blank) && rest.iter().all(|sector| *sector == [0; SECTOR])
}

/// The sectors up to the last with a nonzero byte. It is looked for from behind, so that nothing
/// else is asked of the blank end.
pub fn up_to_blank_end(sectors: &[Bytes]) -> &[Bytes] {
    let (first, wide) = sectors.as_rchunks::<WIDE>();
    let blank = wide.iter().rev().take_while(|sectors| wide_blank(sectors)).count();
    let rest = &sectors[..first.len() + WIDE * (wide.len() - blank)];
    let end = rest.iter().rposition(|sector| *sector != [0; SECTOR]).map_or(0, |last| last + 1);
    &rest[..end]
}

/// Byte by byte into one, without a way out, which the compiler does many bytes at a time.
fn wide_blank(sectors: &[Bytes; WIDE]) -> bool {
    sectors.as_flattened().iter().fold(0, |any, byte| any | byte) == 0
}
