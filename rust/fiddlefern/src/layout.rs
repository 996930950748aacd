//! Where the elements X, H and U stand in a stripe (docs/SPEC.md 2), and the diagonal of a place.
//! The examples are worked by hand.
use crate::Shape;
use core::ops::Range;

/// Panics where the value is not below its limit, as an index past the end of a slice does.
#[track_caller]
pub(crate) fn below(what: &str, value: usize, limit: usize) {
    assert!(
        value < limit,
        "the {what} is {value} and must be below {limit}"
    );
}

impl Shape {
    /// Where the data element X of this row and strip stands in the stripe.
    ///
    /// # Panics
    ///
    /// Where the row is not below r or the strip is not below n.
    ///
    /// ```
    /// # use fiddlefern::Shape;
    /// let shape = Shape::new(5, 2, 2, 4)?;
    /// assert_eq!(shape.element_range(1, 2), 28..32); // after 3 + 3 + 1 elements
    /// # Ok::<(), fiddlefern::Refusal>(())
    /// ```
    #[must_use]
    #[track_caller]
    pub fn element_range(self, row: usize, strip: usize) -> Range<usize> {
        self.inside(row, strip);
        self.place(row, strip)
    }

    /// Where H of this row stands in the stripe: in strip n.
    ///
    /// # Panics
    ///
    /// Where the row is not below r.
    ///
    /// ```
    /// # use fiddlefern::Shape;
    /// let shape = Shape::new(5, 2, 2, 1)?;
    /// assert_eq!(shape.h_range(1), 16..17);
    /// # Ok::<(), fiddlefern::Refusal>(())
    /// ```
    #[must_use]
    #[track_caller]
    pub fn h_range(self, row: usize) -> Range<usize> {
        below("row", row, self.rows());
        self.place(row, self.data_strips())
    }

    /// Where U of this diagonal stands in the stripe: in the strip of that number, below its data.
    ///
    /// # Panics
    ///
    /// Where the diagonal is not below n.
    ///
    /// ```
    /// # use fiddlefern::Shape;
    /// let shape = Shape::new(5, 2, 2, 1)?;
    /// assert_eq!(shape.u_range(3), 11..12);
    /// # Ok::<(), fiddlefern::Refusal>(())
    /// ```
    #[must_use]
    #[track_caller]
    pub fn u_range(self, diagonal: usize) -> Range<usize> {
        below("diagonal", diagonal, self.data_strips());
        self.place(self.rows(), diagonal)
    }

    /// The diagonal of this row and strip, (strip + row - (r-1) - s) mod n: the data element there is in U of
    /// that diagonal.
    ///
    /// # Panics
    ///
    /// Where the row is not below r or the strip is not below n.
    ///
    /// ```
    /// # use fiddlefern::Shape;
    /// let shape = Shape::new(7, 4, 1, 4096)?;
    /// let row_0 = [0, 1, 2, 3, 4, 5, 6].map(|strip| shape.diagonal(0, strip));
    /// assert_eq!(row_0, [3, 4, 5, 6, 0, 1, 2]);
    /// # Ok::<(), fiddlefern::Refusal>(())
    /// ```
    #[must_use]
    #[track_caller]
    pub fn diagonal(self, row: usize, strip: usize) -> usize {
        self.inside(row, strip);
        // A good shape has r at most n - s, so n - (r-1) - s does not fall below zero.
        let n = self.data_strips();
        (strip + row + (n - (self.rows() - 1) - self.shift())) % n
    }

    /// Panics where no data element stands in this row and strip.
    #[track_caller]
    pub(crate) fn inside(self, row: usize, strip: usize) {
        below("row", row, self.rows());
        below("strip", strip, self.data_strips());
    }

    /// The bytes of the element in this row of a strip; row r is U's, and strip n has the H.
    pub(crate) fn place(self, row: usize, strip: usize) -> Range<usize> {
        let start = (strip * (self.rows() + 1) + row) * self.element_bytes();
        start..start + self.element_bytes()
    }
}
