//! The digits a panel shows.

use core::fmt;

/// Four to six digits, highest first.
#[derive(Clone, Copy, Debug, PartialEq, Eq, Hash)]
pub struct Panel {
    pub(crate) places: [u8; 6],
    pub(crate) field: usize,
}

impl Panel {
    /// The digits of the field, each from 0 to 9.
    pub fn digits(&self) -> &[u8] {
        &self.places[..self.field]
    }

    /// All six places; those past the field are 0.
    pub fn places(&self) -> [u8; 6] {
        self.places
    }
}

/// As on the panel: `9:59.99`.
impl fmt::Display for Panel {
    fn fmt(&self, f: &mut fmt::Formatter<'_>) -> fmt::Result {
        let minutes = self.field - 4;
        for (i, digit) in self.digits().iter().enumerate() {
            if i == minutes && i > 0 {
                f.write_str(":")?;
            }
            if i == minutes + 2 {
                f.write_str(".")?;
            }
            write!(f, "{digit}")?;
        }
        Ok(())
    }
}
