//! The 64-bit number that a raw call answers, taken apart as `fiddlefern_sys` describes it.
use crate::{Finding, Lost, Refusal, Shape};

/// What the raw call of this name answered.
#[derive(Clone, Copy)]
pub(crate) struct Answer {
    pub(crate) call: &'static str,
    pub(crate) bits: u64,
}

impl Answer {
    /// The number that comes back: 0 done, else the refusal's.
    pub(crate) fn number(self) -> usize {
        self.byte(0)
    }

    fn byte(self, k: usize) -> usize {
        usize::from(self.bits.to_le_bytes()[k])
    }

    /// The upper 32 bits: judge's size, read's offset.
    pub(crate) fn upper(self) -> usize {
        (self.bits >> 32) as usize
    }

    /// The refusal of a shape, numbers 1 to 5, which the judge gives.
    pub(crate) fn shape_refusal(self, (n, r, s, e): (usize, usize, usize, usize)) -> Refusal {
        match self.number() {
            1 => Refusal::Strips { n },
            2 => Refusal::Rows { r },
            3 => Refusal::Shift { s, n },
            4 => Refusal::Element { e },
            5 => Refusal::Weak {
                n,
                r,
                s,
                lower: self.byte(1),
                upper: self.byte(2),
            },
            _ => self.excluded(),
        }
    }

    /// The refusal of a call on a buffer of this length, numbers 1 to 6.
    pub(crate) fn stripe_refusal(self, shape: Shape, length: usize) -> Refusal {
        match self.number() {
            6 => Refusal::Length {
                length,
                size: shape.size(),
            },
            _ => self.shape_refusal(shape.numbers()),
        }
    }

    /// The refusal of a mask with a one above bit n, number 7.
    pub(crate) fn mask_refusal(self, shape: Shape, lost: Lost) -> Refusal {
        let highest = lost.strips().next_back();
        Refusal::Mask {
            strip: highest.unwrap_or_else(|| self.excluded()),
            n: shape.n(),
        }
    }

    /// The element that read finds, where it is done.
    pub(crate) fn element(self, stripe: &[u8], e: usize) -> &[u8] {
        let offset = self.upper();
        let part = stripe.get(offset..offset + e);
        part.unwrap_or_else(|| self.excluded())
    }

    /// What scrub finds, where it is done.
    pub(crate) fn finding(self) -> Finding {
        let (row, other) = (self.byte(4), self.byte(5));
        match (self.byte(3), self.byte(1), self.byte(2)) {
            (0, 0, 0) => Finding::Sound,
            (1, 1, 0) => Finding::H { row },
            (2, 0, 1) => Finding::U { diagonal: other },
            (3, 1, 1) => Finding::Element { row, strip: other },
            (4, a, b) => Finding::Several { a, b },
            _ => self.excluded(),
        }
    }

    /// Ends a call whose answer its contract excludes: the archive that was linked is not the proved one.
    #[cold]
    fn excluded(self) -> ! {
        panic!(
            "fiddlefern_{} answered {:#x}, which its contract excludes: another archive is linked",
            self.call, self.bits
        )
    }
}

#[cfg(test)]
mod tests {
    use super::*;

    fn scrub(bits: u64) -> Answer {
        Answer {
            call: "scrub",
            bits,
        }
    }

    #[test]
    fn findings_are_taken_apart() {
        // From byte 1 on: a, b, the number, the row, the diagonal or the strip.
        let packed = [
            ([0, 0, 0, 0, 0], Finding::Sound),
            ([1, 0, 1, 4, 0], Finding::H { row: 4 }),
            ([0, 1, 2, 0, 6], Finding::U { diagonal: 6 }),
            ([1, 1, 3, 4, 6], Finding::Element { row: 4, strip: 6 }),
            ([3, 2, 4, 0, 0], Finding::Several { a: 3, b: 2 }),
        ];
        for (bytes @ [.., code, _, _], expected) in packed {
            let [a, b, c, d, e] = bytes;
            let finding = scrub(u64::from_le_bytes([0, a, b, c, d, e, 0, 0])).finding();
            assert_eq!((finding, finding.code()), (expected, code));
        }
    }

    #[test]
    #[should_panic(expected = "fiddlefern_scrub answered 0xb, which its contract excludes")]
    fn a_number_above_10_is_excluded() {
        scrub(11).shape_refusal((3, 1, 1, 1));
    }

    #[test]
    #[should_panic(expected = "fiddlefern_scrub answered 0x1000000, which its contract excludes")]
    fn a_finding_without_its_count_is_excluded() {
        let _ = scrub(0x0100_0000).finding();
    }

    #[test]
    #[should_panic(expected = "which its contract excludes")]
    fn an_element_past_the_end_is_excluded() {
        let answer = Answer {
            call: "read",
            bits: 7 << 32,
        };
        answer.element(&[0; 7], 1);
    }
}
