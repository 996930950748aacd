//! Shapes that the library accepted.
use crate::{Lost, Refusal, raw, version};

/// A shape that was judged and accepted: any two of its strips can be given back.
///
/// A stripe has n data strips, 0 to n-1, each with r data elements of e bytes and below them one
/// v-parity element U. Strip n is the h-parity strip with r elements H. Strips stand one after the
/// other: strip j is X(0, j) .. X(r-1, j), U(j), and strip n is H(0) .. H(r-1). H(i) is the XOR of row i;
/// U(d) is the XOR of all X(i, j) whose diagonal, (j + i - (r-1) - s) mod n, is d. A stripe is sound when
/// every H and U has that value in every byte.
#[derive(Clone, Copy, Debug, PartialEq, Eq, Hash)]
#[must_use = "a shape does nothing by itself: its methods are the calls"]
pub struct Shape {
    n: usize,
    r: usize,
    s: usize,
    e: usize,
    size: usize,
}

impl Shape {
    /// Judges a shape: n data strips, r rows, shift s, elements of e bytes.
    ///
    /// # Errors
    ///
    /// Numbers 1 to 5: a number is outside its limits, or the shape is weak, and then the first failing
    /// pair comes with it.
    ///
    /// # Panics
    ///
    /// Where an archive of another version than this crate's is linked.
    ///
    /// ```
    /// use fiddlefern::{Refusal, Shape};
    ///
    /// assert_eq!(Shape::new(7, 5, 1, 4096)?.size(), 4096 * (7 * 6 + 5));
    /// let weak = Refusal::Weak { n: 8, r: 5, s: 1, lower: 0, upper: 4 };
    /// assert_eq!(Shape::new(8, 5, 1, 4096), Err(weak));
    /// # Ok::<(), Refusal>(())
    /// ```
    pub fn new(n: usize, r: usize, s: usize, e: usize) -> Result<Shape, Refusal> {
        version::check(raw::version());
        let answer = raw::judge(n, r, s, e);
        match answer.number() {
            0 => Ok(Shape {
                n,
                r,
                s,
                e,
                size: answer.upper(),
            }),
            _ => Err(answer.shape_refusal((n, r, s, e))),
        }
    }

    /// The greatest r that serves for n data strips and shift s. It judges one shape after the other.
    ///
    /// # Errors
    ///
    /// Number 1 or 3 for n or s outside its limits; where no r serves, the weak shape of r = 1.
    ///
    /// # Panics
    ///
    /// As [`Shape::new`] does.
    ///
    /// ```
    /// # use fiddlefern::Shape;
    /// assert_eq!(Shape::greatest_rows(9, 4), Ok(5));
    /// ```
    pub fn greatest_rows(n: usize, s: usize) -> Result<usize, Refusal> {
        let _ = Shape::new(n, 1, s, 1)?;
        // Where r rows are too many, more rows are too.
        let served = (2..=32).take_while(|&r| Shape::new(n, r, s, 1).is_ok());
        Ok(served.last().unwrap_or(1))
    }

    /// The number of data strips: [`data_strips`](Shape::data_strips).
    #[must_use]
    pub const fn n(self) -> usize {
        self.n
    }

    /// The number of rows: [`rows`](Shape::rows).
    #[must_use]
    pub const fn r(self) -> usize {
        self.r
    }

    /// The shift: [`shift`](Shape::shift).
    #[must_use]
    pub const fn s(self) -> usize {
        self.s
    }

    /// The bytes of an element: [`element_bytes`](Shape::element_bytes).
    #[must_use]
    pub const fn e(self) -> usize {
        self.e
    }

    /// n, the number of data strips; [`n`](Shape::n) for short.
    #[must_use]
    pub const fn data_strips(self) -> usize {
        self.n()
    }

    /// r, the number of rows: the data elements of a data strip; [`r`](Shape::r) for short.
    #[must_use]
    pub const fn rows(self) -> usize {
        self.r()
    }

    /// s, the shift; [`s`](Shape::s) for short.
    #[must_use]
    pub const fn shift(self) -> usize {
        self.s()
    }

    /// e, the bytes of an element; [`e`](Shape::e) for short.
    #[must_use]
    pub const fn element_bytes(self) -> usize {
        self.e()
    }

    /// The bytes of the stripe: e (n (r+1) + r).
    #[must_use]
    pub const fn size(self) -> usize {
        self.size
    }

    /// The set of these strips. A strip may be named twice.
    ///
    /// # Errors
    ///
    /// Number 7 where a strip is above n.
    ///
    /// ```
    /// # use fiddlefern::{Refusal, Shape};
    /// let shape = Shape::new(5, 2, 2, 1)?;
    /// assert_eq!(shape.lost(&[5, 0])?.mask(), 0b10_0001);
    /// assert_eq!(shape.lost(&[0, 6]), Err(Refusal::Mask { strip: 6, n: 5 }));
    /// # Ok::<(), Refusal>(())
    /// ```
    pub fn lost(self, strips: &[usize]) -> Result<Lost, Refusal> {
        match strips.iter().copied().max() {
            Some(strip) if strip > self.n => Err(Refusal::Mask { strip, n: self.n }),
            _ => Ok(strips.iter().copied().collect()),
        }
    }

    pub(crate) const fn numbers(self) -> (usize, usize, usize, usize) {
        (self.n, self.r, self.s, self.e)
    }
}
