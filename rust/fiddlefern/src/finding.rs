//! What a scrub finds.
use crate::text::Told;
use crate::{Lost, Shape};
use core::fmt::Display;

/// What a scrub finds, from a, the number of rows whose H is wrong, and b, the number of diagonals whose
/// U is wrong: each variant's number, which [`Finding::code`] gives, is for its (a, b).
///
/// A finding is what one wrong element would look like. Several wrong elements can look like one, or
/// cancel in every row and diagonal and look sound: a scrub is no checksum.
///
/// ```
/// use fiddlefern::{Finding, Shape};
///
/// let shape = Shape::new(5, 2, 2, 1)?;
/// let mut stripe = vec![0; shape.size()];
/// assert_eq!(shape.scrub(&stripe)?.code(), 0);
/// stripe[shape.element_range(1, 4)].fill(7);
/// let finding = shape.scrub(&stripe)?;
/// assert_eq!(finding, Finding::Element { row: 1, strip: 4 });
/// assert_eq!(finding.code(), 3);
/// assert_eq!(finding.counts(), (1, 1));
/// # Ok::<(), fiddlefern::Refusal>(())
/// ```
#[derive(Clone, Copy, Debug, PartialEq, Eq, Hash)]
#[must_use = "a finding says whether the stripe is sound, and what is wrong where it is not"]
#[non_exhaustive]
pub enum Finding {
    /// 0, for (0, 0): the stripe is sound.
    Sound,
    /// 1, for (1, 0): that H is wrong.
    H {
        /// The row whose H it is.
        row: usize,
    },
    /// 2, for (0, 1): that U is wrong.
    U {
        /// The diagonal whose U it is; strip `diagonal` stores it, below its data elements.
        diagonal: usize,
    },
    /// 3, for (1, 1): the data element is wrong where the row and the diagonal meet.
    Element {
        /// The element's row.
        row: usize,
        /// The element's strip.
        strip: usize,
    },
    /// 4, for anything else: more than one element is wrong.
    Several {
        /// How many rows have a wrong H.
        a: usize,
        /// How many diagonals have a wrong U.
        b: usize,
    },
}

impl Finding {
    /// The finding's number, the same in every language that calls the library: 0 sound, 1 that H, 2 that U,
    /// 3 the data element, 4 several.
    #[must_use]
    pub const fn code(self) -> u8 {
        match self {
            Finding::Sound => 0,
            Finding::H { .. } => 1,
            Finding::U { .. } => 2,
            Finding::Element { .. } => 3,
            Finding::Several { .. } => 4,
        }
    }

    /// How many rows have a wrong H, and how many diagonals a wrong U: (a, b).
    #[must_use]
    pub const fn counts(self) -> (usize, usize) {
        match self {
            Finding::Sound => (0, 0),
            Finding::H { .. } => (1, 0),
            Finding::U { .. } => (0, 1),
            Finding::Element { .. } => (1, 1),
            Finding::Several { a, b } => (a, b),
        }
    }

    /// The strips to look at, in a stripe of this shape: none of a sound one, the strip that stores the wrong element
    /// where there is one, and every strip where several are wrong, since the finding does not say which.
    ///
    /// A rebuild of the one strip mends it, where no other element is wrong. A rebuild of every strip is refused
    /// with 8, and changes nothing.
    ///
    /// ```
    /// # use fiddlefern::{Finding, Lost, Shape};
    /// let shape = Shape::new(5, 2, 2, 1)?;
    /// assert_eq!(Finding::Sound.strips(shape), Lost::NONE);
    /// assert_eq!(Finding::H { row: 1 }.strips(shape), Lost::strip(5));
    /// assert_eq!(Finding::U { diagonal: 3 }.strips(shape), Lost::strip(3));
    /// assert_eq!(Finding::Element { row: 1, strip: 4 }.strips(shape), Lost::strip(4));
    /// let several = Finding::Several { a: 2, b: 2 };
    /// assert!(several.strips(shape).strips().eq(0..6));
    /// # Ok::<(), fiddlefern::Refusal>(())
    /// ```
    pub fn strips(self, shape: Shape) -> Lost {
        match self {
            Finding::Sound => Lost::NONE,
            Finding::H { .. } => Lost::strip(shape.data_strips()),
            // U(d) stands in strip d.
            Finding::U { diagonal } => Lost::strip(diagonal),
            Finding::Element { strip, .. } => Lost::strip(strip),
            Finding::Several { .. } => (0..shape.strips()).collect(),
        }
    }

    /// The finding in words, for a stripe of this shape, with the disk to look at: disk j holds strip j. Where several
    /// are wrong it says what [`Display`] calls a and b.
    ///
    /// ```
    /// # use fiddlefern::{Finding, Shape};
    /// let shape = Shape::new(5, 2, 2, 1)?;
    /// let told = |finding: Finding| finding.told(shape).to_string();
    /// assert_eq!(told(Finding::H { row: 1 }), "H of row 1 is wrong: look at disk 5");
    /// assert_eq!(told(Finding::U { diagonal: 3 }), "U of diagonal 3 is wrong: look at disk 3");
    /// assert_eq!(told(Finding::Sound), "the stripe is sound");
    /// let several = Finding::Several { a: 1, b: 2 };
    /// let text = "1 row and 2 diagonals are wrong: more than one element is damaged, on any of disks 0 to 5";
    /// assert_eq!(told(several), text);
    /// # Ok::<(), fiddlefern::Refusal>(())
    /// ```
    #[must_use]
    pub fn told(self, shape: Shape) -> impl Display {
        Told {
            finding: self,
            shape,
        }
    }
}
