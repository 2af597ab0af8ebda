//! The shape a card is formatted to.

/// Buckets, sectors of a bucket, and the two thresholds below which a full bucket is rewritten to
/// one bucket and not to two.
#[derive(Clone, Copy, Debug, PartialEq, Eq, Hash)]
pub struct Shape {
    /// From 2 to 4096.
    pub buckets: u32,
    /// From 4 to 32.
    pub sectors: u32,
    /// For data buckets: from 2 to `sectors`. 0 means half of them, rounded down: `sectors / 2`.
    pub td: u32,
    /// For index buckets: from 4 to `sectors`. 0 means all of them less an eighth, that eighth
    /// rounded down: `sectors - sectors / 8`.
    pub ti: u32,
}

impl Shape {
    /// A shape with the usual thresholds, 0 and 0.
    pub const fn new(buckets: u32, sectors: u32) -> Shape {
        Shape { buckets, sectors, td: 0, ti: 0 }
    }

    /// The same shape with this threshold for data buckets.
    pub const fn td(self, td: u32) -> Shape {
        Shape { td, ..self }
    }

    /// The same shape with this threshold for index buckets.
    pub const fn ti(self, ti: u32) -> Shape {
        Shape { ti, ..self }
    }

    /// The length of a card of this shape, 16 x (1 + buckets x (sectors + 1)), if it can be counted
    /// at all. Whether the shape keeps the limits is for [`crate::format`] to say.
    ///
    /// ```
    /// assert_eq!(card::Shape::new(819, 4).bytes(), Some(65_536));
    /// ```
    pub fn bytes(self) -> Option<usize> {
        let per_bucket = usize::try_from(self.sectors).ok()?.checked_add(1)?;
        let sectors = usize::try_from(self.buckets).ok()?.checked_mul(per_bucket)?;
        sectors.checked_add(1)?.checked_mul(16)
    }
}
