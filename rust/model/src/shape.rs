//! The numbers of a shape, where its elements stand in the stripe, and the diagonal of a place.
use std::ops::{Range, RangeInclusive};

/// The strips allowed.
pub const N: RangeInclusive<usize> = 3..=32;
/// The rows allowed.
pub const R: RangeInclusive<usize> = 1..=32;
/// The bytes of an element allowed.
pub const E: RangeInclusive<usize> = 1..=4096;

/// The numbers as a caller gives them, allowed or not. Every method but [`Shape::within`] requires allowed ones.
#[derive(Clone, Copy, Debug, PartialEq, Eq)]
pub struct Shape {
    /// Data strips.
    pub n: usize,
    /// Rows.
    pub r: usize,
    /// The shift.
    pub s: usize,
    /// Bytes of an element.
    pub e: usize,
}

impl Shape {
    /// The first refusal of 1 to 4 that holds, if any.
    pub fn within(self) -> Result<(), u64> {
        if !N.contains(&self.n) {
            Err(1)
        } else if !R.contains(&self.r) {
            Err(2)
        } else if !(1..self.n).contains(&self.s) {
            Err(3)
        } else if !E.contains(&self.e) {
            Err(4)
        } else {
            Ok(())
        }
    }

    /// The number of elements in the stripe.
    pub fn places(self) -> usize {
        self.n * (self.r + 1) + self.r
    }

    /// The size of the stripe in bytes.
    pub fn size(self) -> usize {
        self.e * self.places()
    }

    /// The place of X(i, j).
    pub fn x(self, i: usize, j: usize) -> usize {
        j * (self.r + 1) + i
    }

    /// The place of U(j).
    pub fn u(self, j: usize) -> usize {
        j * (self.r + 1) + self.r
    }

    /// The place of H(i).
    pub fn h(self, i: usize) -> usize {
        self.n * (self.r + 1) + i
    }

    /// The diagonal of X(i, j).
    pub fn diagonal(self, i: usize, j: usize) -> usize {
        let [n, r, s, i, j] = [self.n, self.r, self.s, i, j].map(|number| number as i64);
        (j + i - (r - 1) - s).rem_euclid(n) as usize
    }

    /// The places of a strip.
    pub fn strip(self, j: usize) -> Range<usize> {
        let first = j * (self.r + 1);
        first..first + if j == self.n { self.r } else { self.r + 1 }
    }

    /// The bytes of the element at a place.
    pub fn bytes(self, place: usize) -> Range<usize> {
        place * self.e..(place + 1) * self.e
    }
}
