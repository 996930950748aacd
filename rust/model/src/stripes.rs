//! Drawing stripes, damage and lost sets.
use crate::calls::encode;
use crate::draw::Draw;
use crate::shape::{N, Shape};

impl Draw {
    /// A stripe for the shape: sound, damaged or of random bytes, now and then of another length.
    pub fn stripe(&mut self, shape: Shape) -> Vec<u8> {
        // Numbers outside the limits give no size; a large stripe takes long and is compared elsewhere.
        if shape.within().is_err() || shape.size() > 1 << 20 {
            let len = self.below(100);
            return self.bytes(len);
        }
        let size = shape.size();
        if self.chance(10) {
            let other = self.below(2 * size);
            let len = self.pick(&[
                0,
                1,
                size - 1,
                size + 1,
                size - shape.e,
                size + shape.e,
                2 * size,
                other,
            ]);
            return self.bytes(len);
        }
        match self.below(4) {
            0 => self.bytes(size),
            1 => self.sound(shape),
            _ => {
                let mut stripe = self.sound(shape);
                for _ in 0..self.pick(&[1, 1, 1, 2, 3]) {
                    let place = self.place(shape);
                    self.damage(shape, &mut stripe, place);
                }
                stripe
            }
        }
    }

    /// A sound stripe.
    pub fn sound(&mut self, shape: Shape) -> Vec<u8> {
        let mut stripe = self.bytes(shape.size());
        encode(shape, &mut stripe);
        stripe
    }

    /// A place: of data, of a U or of an H, each as often.
    pub fn place(&mut self, shape: Shape) -> usize {
        let (i, j) = (self.below(shape.r), self.below(shape.n));
        self.pick(&[shape.x(i, j), shape.u(j), shape.h(i)])
    }

    /// Makes the element at a place wrong: its last byte alone, another byte alone, or all of them.
    pub fn damage(&mut self, shape: Shape, stripe: &mut [u8], place: usize) {
        let element = &mut stripe[shape.bytes(place)];
        let other = self.below(element.len());
        let wrong = match self.below(3) {
            0 => &mut element[shape.e - 1..],
            1 => &mut element[other..=other],
            _ => element,
        };
        for byte in wrong {
            *byte ^= self.within(1..=255) as u8;
        }
    }

    /// Fills the lost strips with random bytes.
    pub fn lose(&mut self, shape: Shape, stripe: &mut [u8], mask: u64) {
        for strip in (0..=shape.n).filter(|strip| mask >> strip & 1 == 1) {
            for place in shape.strip(strip) {
                self.fill(&mut stripe[shape.bytes(place)]);
            }
        }
    }

    /// A lost set of `ones` strips or fewer of the first `strips`.
    pub fn lost(&mut self, strips: usize, ones: usize) -> u64 {
        (0..ones).fold(0, |mask, _| mask | 1 << self.below(strips))
    }

    /// A mask: at most two strips lost mostly, else three, or one above bit n, or anything.
    pub fn mask(&mut self, shape: Shape) -> u64 {
        let strips = shape.n.min(*N.end()) + 1;
        match self.below(20) {
            0 => 0,
            1..4 => self.lost(strips, 1),
            4..15 => self.lost(strips, 2),
            15 => self.lost(strips, 3),
            16 => self.lost(strips, 1) | 1 << strips,
            17 => self.lost(strips, 1) | self.lost(64, 1),
            18 => self.pick(&[
                1 << 63,
                1 << 32,
                1 << 31,
                u64::MAX,
                u64::MAX >> (63 - shape.n.min(63)),
                7 << (strips - 1),
            ]),
            _ => self.number(),
        }
    }
}
