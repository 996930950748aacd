//! The strips of a stripe: how many there are, how many bytes each has and where these stand, and where its data stands.
//! The examples are worked by hand.
use crate::Shape;
use crate::layout::below;
use core::ops::Range;

impl Shape {
    /// The number of strips, n + 1: the data strips and strip n, each on a disk of its own.
    ///
    /// ```
    /// # use fiddlefern::Shape;
    /// let shape = Shape::new(7, 5, 1, 4096)?;
    /// assert_eq!((shape.data_strips(), shape.strips()), (7, 8));
    /// # Ok::<(), fiddlefern::Refusal>(())
    /// ```
    #[must_use]
    pub const fn strips(self) -> usize {
        self.n() + 1
    }

    /// How many bytes a strip has, which is what a stripe takes on its disk: r + 1 elements, and r for strip n,
    /// since the corner square is not stored.
    ///
    /// # Panics
    ///
    /// Where the strip is above n.
    ///
    /// ```
    /// # use fiddlefern::Shape;
    /// let shape = Shape::new(5, 2, 2, 4)?;
    /// assert_eq!(shape.strip_len(4), 12);
    /// assert_eq!(shape.strip_len(5), 8);
    /// # Ok::<(), fiddlefern::Refusal>(())
    /// ```
    #[must_use]
    #[track_caller]
    pub fn strip_len(self, strip: usize) -> usize {
        self.strip_range(strip).len()
    }

    /// Where this strip's bytes stand in the stripe: what its disk holds. [`strip_range`](Shape::strip_range) is the
    /// same, and its panic names the strip.
    ///
    /// # Panics
    ///
    /// Where the strip is above n, as an index past the end of a slice does.
    ///
    /// ```
    /// # use fiddlefern::Shape;
    /// let shape = Shape::new(5, 2, 2, 1)?;
    /// assert_eq!(shape.strip_bytes(1), 3..6);
    /// assert_eq!(shape.strip_bytes(5), 15..17);
    /// # Ok::<(), fiddlefern::Refusal>(())
    /// ```
    #[must_use]
    pub const fn strip_bytes(self, strip: usize) -> Range<usize> {
        assert!(strip <= self.n(), "the strip is above n");
        let start = strip * (self.r() + 1) * self.e();
        let end = start + (self.r() + 1) * self.e();
        // Only strip n ends earlier: the corner square is not stored.
        start..if strip < self.n() { end } else { self.size() }
    }

    /// Where a strip's bytes stand in the stripe: what its disk holds. Strip n has the H. It is what
    /// [`strip_bytes`](Shape::strip_bytes) gives, and a panic names the strip.
    ///
    /// # Panics
    ///
    /// Where the strip is above n.
    ///
    /// ```
    /// # use fiddlefern::Shape;
    /// let shape = Shape::new(5, 2, 2, 1)?;
    /// assert_eq!(shape.strip_range(1), 3..6);
    /// assert_eq!(shape.strip_range(5), 15..17);
    /// # Ok::<(), fiddlefern::Refusal>(())
    /// ```
    #[must_use]
    #[track_caller]
    pub fn strip_range(self, strip: usize) -> Range<usize> {
        below("strip", strip, self.strips());
        self.strip_bytes(strip)
    }

    /// Where the data of a strip stands in the stripe: its strip without the U below.
    ///
    /// # Panics
    ///
    /// Where the strip is not below n: strip n has no data.
    ///
    /// ```
    /// # use fiddlefern::Shape;
    /// let shape = Shape::new(5, 2, 2, 1)?;
    /// assert_eq!(shape.data_range(1), 3..5);
    /// # Ok::<(), fiddlefern::Refusal>(())
    /// ```
    #[must_use]
    #[track_caller]
    pub fn data_range(self, strip: usize) -> Range<usize> {
        below("strip", strip, self.data_strips());
        self.place(0, strip).start..self.place(self.rows(), strip).start
    }
}
