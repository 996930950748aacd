//! Sets of lost strips.
use core::ops::{BitOr, BitOrAssign};

/// A set of lost strips, held as a mask: bit j stands for strip j. Sets are ordered as their masks are.
///
/// Any mask makes a set. [`Shape::rebuild`](crate::Shape::rebuild) checks it against the shape: no strip
/// above n, and at most two. [`Shape::lost`](crate::Shape::lost) makes a set from the strips' numbers and
/// checks them at once; `|` and `collect` put sets together unchecked.
///
/// ```
/// use fiddlefern::Lost;
///
/// let lost = Lost::from_mask(0b100_0001);
/// assert_eq!(lost.len(), 2);
/// assert!(lost.contains(6) && !lost.contains(1));
/// assert!(lost.strips().eq([0, 6]));
/// assert_eq!(lost.to_string(), "0, 6");
/// assert_eq!(Lost::strip(0) | Lost::strip(6), lost);
/// assert_eq!([6, 0].into_iter().collect::<Lost>(), lost);
/// ```
#[derive(Clone, Copy, Debug, Default, PartialEq, Eq, PartialOrd, Ord, Hash)]
#[must_use = "a set of strips does nothing by itself"]
pub struct Lost {
    mask: u64,
}

impl Lost {
    /// No strip.
    pub const NONE: Lost = Lost { mask: 0 };

    /// The strips whose bits are ones in the mask.
    pub const fn from_mask(mask: u64) -> Lost {
        Lost { mask }
    }

    /// This strip alone. Strips from 64 on have no bit: they give the mask of all ones, which every shape refuses
    /// with 7, and never the mask of another strip.
    ///
    /// ```
    /// # use fiddlefern::Lost;
    /// assert_eq!(Lost::strip(32).mask(), 0x1_0000_0000);
    /// assert_eq!(Lost::strip(64).mask(), u64::MAX);
    /// ```
    pub const fn strip(strip: usize) -> Lost {
        Lost {
            mask: if strip < 64 { 1 << strip } else { u64::MAX },
        }
    }

    /// The mask: bit j is one where strip j is lost.
    #[must_use]
    pub const fn mask(self) -> u64 {
        self.mask
    }

    /// How many strips are lost: the number of ones in the mask.
    #[must_use]
    pub const fn len(self) -> usize {
        self.mask.count_ones() as usize
    }

    /// Whether no strip is lost.
    #[must_use]
    pub const fn is_empty(self) -> bool {
        self.mask == 0
    }

    /// Whether this strip is lost.
    #[must_use]
    pub const fn contains(self, strip: usize) -> bool {
        strip < 64 && self.mask >> strip & 1 == 1
    }

    /// The lost strips, the lowest first.
    pub fn strips(self) -> impl DoubleEndedIterator<Item = usize> + Clone {
        (0..64).filter(move |&strip| self.contains(strip))
    }
}

/// The strips of both sets.
impl BitOr for Lost {
    type Output = Lost;

    fn bitor(self, other: Lost) -> Lost {
        Lost::from_mask(self.mask | other.mask)
    }
}

impl BitOrAssign for Lost {
    fn bitor_assign(&mut self, other: Lost) {
        *self = *self | other;
    }
}

/// The set of these strips, each as [`Lost::strip`] has it. A strip may come twice.
impl FromIterator<usize> for Lost {
    fn from_iter<T: IntoIterator<Item = usize>>(strips: T) -> Lost {
        let sets = strips.into_iter().map(Lost::strip);
        sets.fold(Lost::NONE, BitOr::bitor)
    }
}
