//! The data of a stripe, in the order in which it is cut (docs/SPEC.md 2), and the three elements that a short write touches.
use crate::Shape;
use crate::layout::below;
use core::ops::Range;

impl Shape {
    /// How many bytes of data a stripe has: n r e. The rest of its [`size`](Shape::size) is parity.
    ///
    /// ```
    /// # use fiddlefern::Shape;
    /// let shape = Shape::new(5, 2, 2, 4)?;
    /// assert_eq!((shape.capacity(), shape.size()), (40, 68));
    /// # Ok::<(), fiddlefern::Refusal>(())
    /// ```
    #[must_use]
    pub const fn capacity(self) -> usize {
        self.data_strips() * self.rows() * self.element_bytes()
    }

    /// The row, the strip and the offset in the element of a byte of the data. Data is cut strip after strip, and
    /// in a strip row after row: byte b is in strip b / (r e), in row (b mod r e) / e. So the data of a strip is
    /// one piece of the data, of the stripe and of its disk, and is cut by one copy (see
    /// [`data_range`](Shape::data_range)).
    ///
    /// # Panics
    ///
    /// Where the byte is not below [`capacity`](Shape::capacity).
    ///
    /// ```
    /// # use fiddlefern::Shape;
    /// let shape = Shape::new(5, 2, 2, 4)?; // a strip has 8 bytes of data
    /// assert_eq!(shape.locate(21), (1, 2, 1)); // 16 in strips 0 and 1, 4 in row 0 of strip 2
    /// # Ok::<(), fiddlefern::Refusal>(())
    /// ```
    #[must_use]
    #[track_caller]
    pub fn locate(self, byte: usize) -> (usize, usize, usize) {
        below("byte", byte, self.capacity());
        let (r, e) = (self.rows(), self.element_bytes());
        (byte / e % r, byte / (r * e), byte % e)
    }

    /// Which byte of the data stands in this row and strip, at this offset in the element: the inverse of
    /// [`locate`](Shape::locate).
    ///
    /// # Panics
    ///
    /// Where the row is not below r, the strip not below n, or the offset not below e.
    ///
    /// ```
    /// # use fiddlefern::Shape;
    /// let shape = Shape::new(5, 2, 2, 4)?;
    /// assert_eq!(shape.byte_at(1, 2, 1), 21);
    /// # Ok::<(), fiddlefern::Refusal>(())
    /// ```
    #[must_use]
    #[track_caller]
    pub fn byte_at(self, row: usize, strip: usize, offset: usize) -> usize {
        self.inside(row, strip);
        below("offset", offset, self.element_bytes());
        (strip * self.rows() + row) * self.element_bytes() + offset
    }

    /// The three elements that a short write to this row and strip reads and changes: the data element X, H of its
    /// row and U of its diagonal, in this order. No other byte of the stripe has any influence on it, and none
    /// is changed, so the rest may be zeros: [a short write needs three elements](crate#a-short-write-needs-three-elements).
    ///
    /// # Panics
    ///
    /// Where the row is not below r or the strip is not below n.
    ///
    /// ```
    /// # use fiddlefern::Shape;
    /// let shape = Shape::new(5, 2, 2, 1)?;
    /// assert_eq!(shape.diagonal(0, 2), 4);
    /// assert_eq!(shape.touched(0, 2), [6..7, 15..16, 14..15]); // X(0, 2), H(0), U(4)
    /// # Ok::<(), fiddlefern::Refusal>(())
    /// ```
    #[must_use]
    #[track_caller]
    pub fn touched(self, row: usize, strip: usize) -> [Range<usize>; 3] {
        [
            self.element_range(row, strip),
            self.h_range(row),
            self.u_range(self.diagonal(row, strip)),
        ]
    }
}
