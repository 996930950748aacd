//! Drawing numbers and shapes: allowed ones mostly, else at the edges.
use std::ops::RangeInclusive;

use crate::draw::Draw;
use crate::judge::first_failing_pair;
use crate::shape::{E, N, R, Shape};

impl Draw {
    /// A number of the range.
    pub fn within(&mut self, range: RangeInclusive<usize>) -> usize {
        range.start() + self.below(range.end() - range.start() + 1)
    }

    /// A number at the edges of the range, of 32 bits or of 64, or one that is in the range once its upper bits are cut off.
    pub fn edge(&mut self, range: RangeInclusive<usize>) -> usize {
        let (first, last) = (*range.start(), *range.end());
        let inside = self.within(range);
        let any = self.number() as usize;
        self.pick(&[
            0,
            first.wrapping_sub(1),
            first,
            last,
            last + 1,
            (1 << 8) + inside,
            (1 << 16) + inside,
            (1 << 31) + inside,
            (1 << 32) - 1,
            1 << 32,
            (1 << 32) + inside,
            (1 << 63) - 1,
            (1 << 63) + inside,
            usize::MAX - inside,
            usize::MAX,
            any,
        ])
    }

    /// Like [`Draw::within`], and in `percent` of 100 cases like [`Draw::edge`].
    pub fn near(&mut self, range: RangeInclusive<usize>, percent: usize) -> usize {
        if self.chance(percent) {
            self.edge(range)
        } else {
            self.within(range)
        }
    }

    /// A shape within the limits, weak or not, of at most so many data strips, with elements of e bytes.
    pub fn shape(&mut self, most: usize, e: usize) -> Shape {
        let n = self.within(*N.start()..=most);
        Shape {
            n,
            r: self.within(R),
            s: self.within(1..=n - 1),
            e,
        }
    }

    /// An accepted shape of at most so many data strips, with elements of e bytes.
    pub fn accepted(&mut self, most: usize, e: usize) -> Shape {
        let mut shapes = (0..10_000).map(|_| self.shape(most, e));
        let accepted = |shape: &Shape| first_failing_pair(*shape).is_none();
        shapes
            .find(accepted)
            .expect("of the shapes one in ten at least is accepted")
    }

    /// Bytes of an element, few mostly.
    pub fn element(&mut self) -> usize {
        let most = self.pick(&[1, 4, 40, 40, 200]);
        self.within(1..=most)
    }

    /// Any shape: accepted mostly, else weak or with numbers outside.
    pub fn any_shape(&mut self) -> Shape {
        let e = self.element();
        let most = *N.end();
        match self.below(10) {
            0..7 => self.accepted(most, e),
            7 => self.shape(most, e),
            _ => {
                let n = self.near(N, 30);
                let last = n.saturating_sub(1).clamp(1, most);
                Shape {
                    n,
                    r: self.near(R, 30),
                    s: self.near(1..=last, 30),
                    e: self.near(E, 30),
                }
            }
        }
    }
}
