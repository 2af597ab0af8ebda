//! The root log.

use crate::run::Run;
use crate::sector::Bytes;

/// The log as of a stamp.
pub struct Log {
    /// The bucket of the last root entry left.
    pub root: u32,
    /// The number of written sectors.
    pub len: usize,
}

impl Log {
    /// The log holds only root entries; `None` is damage, and no entry left is that too.
    pub fn judged(part: &[Bytes], buckets: u32, t: u32) -> Option<Log> {
        let mut root = None;
        let run = Run::judged(part, |_, entry| {
            if entry.stamp <= t {
                root = Some(entry.value);
            }
            entry.is_sound_root(buckets)
        })?;
        Some(Log { root: root?, len: run.len() })
    }
}
