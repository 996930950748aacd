//! Why a call is refused: one variant for each of the numbers 1 to 10, with the values that it is about.
use crate::{Lost, Shape};
use core::error::Error;

/// Why a call is refused. A refused call changes no byte, apart from [`Refusal::NoSound`].
///
/// The checks of a call run in the order of the numbers that [`Refusal::code`] gives, and the first that
/// fails is the refusal.
///
/// ```
/// use fiddlefern::{Refusal, Shape};
///
/// let refusal = Shape::new(33, 5, 1, 4096).unwrap_err();
/// assert_eq!(refusal, Refusal::Strips { n: 33 });
/// assert_eq!(refusal.code(), 1);
/// assert_eq!(refusal.to_string(), "n is 33 and must be 3 to 32");
/// ```
#[derive(Clone, Copy, Debug, PartialEq, Eq, Hash)]
#[non_exhaustive]
pub enum Refusal {
    /// 1: n is outside 3 to 32.
    Strips {
        /// The n that was given.
        n: usize,
    },
    /// 2: r is outside 1 to 32.
    Rows {
        /// The r that was given.
        r: usize,
    },
    /// 3: s is outside 1 to n-1.
    Shift {
        /// The s that was given.
        s: usize,
        /// The n that it must be below.
        n: usize,
    },
    /// 4: e is outside 1 to 4096.
    Element {
        /// The e that was given.
        e: usize,
    },
    /// 5: the shape is weak. The first failing pair comes with it: two different sound stripes of this
    /// shape agree outside these two strips.
    Weak {
        /// The shape's n.
        n: usize,
        /// The shape's r.
        r: usize,
        /// The shape's s.
        s: usize,
        /// The pair's lower strip.
        lower: usize,
        /// The pair's upper strip.
        upper: usize,
    },
    /// 6: the buffer's length differs from the stripe's size.
    Length {
        /// The buffer's length.
        length: usize,
        /// The stripe's size.
        size: usize,
    },
    /// 7: a strip above n is among the lost ones.
    Mask {
        /// The highest strip among them; 63 where a [`Lost`] was made of a higher number.
        strip: usize,
        /// The shape's n, the last strip.
        n: usize,
    },
    /// 8: more than two strips are lost.
    Many {
        /// The lost strips.
        lost: Lost,
    },
    /// 9: the place is outside: the row is not below r, the strip is not below n, or offset plus length is
    /// above e.
    Place {
        /// The row that was given.
        row: usize,
        /// The strip that was given.
        strip: usize,
        /// The offset in the element; 0 for a read.
        offset: usize,
        /// The length of the run; 0 for a read.
        length: usize,
        /// The shape whose place it should be.
        shape: Shape,
    },
    /// 10: the survivors agree with no sound stripe. They are as they were, and every byte of the lost
    /// strips is zero.
    NoSound {
        /// The lost strips.
        lost: Lost,
    },
}

impl Refusal {
    /// The refusal's number, the same in every language that calls the library.
    #[must_use]
    pub const fn code(self) -> u8 {
        match self {
            Refusal::Strips { .. } => 1,
            Refusal::Rows { .. } => 2,
            Refusal::Shift { .. } => 3,
            Refusal::Element { .. } => 4,
            Refusal::Weak { .. } => 5,
            Refusal::Length { .. } => 6,
            Refusal::Mask { .. } => 7,
            Refusal::Many { .. } => 8,
            Refusal::Place { .. } => 9,
            Refusal::NoSound { .. } => 10,
        }
    }
}

impl Error for Refusal {}
