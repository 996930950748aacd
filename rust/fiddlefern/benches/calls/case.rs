//! A sound stripe with what the entries need: each call on it, made by each of those that are compared.
use crate::isal::Isal;
use crate::noise::noise;
use crate::plain::Plain;
use fiddlefern::{Finding, Lost, Shape};
use std::hint::black_box;

#[derive(Clone, Copy, PartialEq)]
pub enum Call {
    Encode,
    Scrub,
    Write,
    RebuildOne,
    RebuildTwo,
}

#[derive(Clone, Copy, PartialEq)]
pub enum By {
    Fiddlefern,
    Plain,
    Memcpy,
    Isal,
}

pub struct Case {
    pub shape: Shape,
    plain: Plain,
    isal: Option<Isal>,
    stripe: &'static mut [u8],
    copy: &'static mut [u8],
    run: Vec<u8>,
}

impl Case {
    pub fn new((n, r, s, e): (usize, usize, usize, usize)) -> Case {
        let shape = Shape::new(n, r, s, e).expect("a good shape");
        let plain = Plain::new(n, r, s, e);
        let stripe = aligned(shape.size());
        stripe.copy_from_slice(&noise(shape.size()));
        plain.encode(stripe);
        let (copy, run) = (aligned(n * r * e), vec![0xA5; e]);
        let isal = Isal::open(&plain.lines, e);
        Case {
            shape,
            plain,
            isal,
            stripe,
            copy,
            run,
        }
    }

    /// How many bytes a call is about, and memcpy copies: the element that is written, or else the data.
    pub fn bytes(&self, call: Call) -> usize {
        match call {
            Call::Write => self.run.len(),
            _ => self.copy.len(),
        }
    }

    /// Whether this entry can be measured.
    pub fn has(&self, call: Call, by: By) -> bool {
        by != By::Isal || (call == Call::Encode && self.isal.is_some())
    }

    /// Makes a call that the case has. It leaves the stripe sound.
    pub fn make(&mut self, call: Call, by: By) {
        match by {
            By::Fiddlefern => self.make_by_fiddlefern(call),
            By::Plain => self.make_by_plain(call),
            By::Memcpy => {
                let m = self.bytes(call);
                self.copy[..m].copy_from_slice(black_box(&self.stripe[..m]));
                black_box(&mut self.copy);
            }
            By::Isal => self.isal.as_ref().expect("libisal").encode(self.stripe),
        }
        black_box(&mut self.stripe);
    }

    fn make_by_fiddlefern(&mut self, call: Call) {
        let (shape, stripe) = (self.shape, &mut *self.stripe);
        let (row, strip) = (shape.r() / 2, shape.n() / 2);
        let answer = match call {
            Call::Encode => shape.encode(stripe),
            Call::Scrub => shape
                .scrub(stripe)
                .map(|found| assert_eq!(found, Finding::Sound)),
            Call::Write => shape.write(stripe, row, strip, 0, &self.run),
            Call::RebuildOne => shape.rebuild(stripe, Lost::from_mask(0b1)),
            Call::RebuildTwo => shape.rebuild(stripe, Lost::from_mask(0b11)),
        };
        answer.expect("done");
    }

    fn make_by_plain(&mut self, call: Call) {
        let (plain, stripe) = (&self.plain, &mut *self.stripe);
        let (row, strip) = (self.shape.r() / 2, self.shape.n() / 2);
        match call {
            Call::Encode => plain.encode(stripe),
            Call::Scrub => assert_eq!(plain.scrub(stripe), (0, 0)),
            Call::Write => plain.write(stripe, row, strip, &self.run),
            Call::RebuildOne => assert!(plain.rebuild(stripe, &[0])),
            Call::RebuildTwo => assert!(plain.rebuild(stripe, &[0, 1])),
        }
    }

    /// Tests that all who make a call leave the same stripe, from strips that are wrong before.
    pub fn test(&mut self, call: Call) {
        let mut before = self.stripe.to_vec();
        let wrong = match call {
            Call::Encode => self.shape.strip_bytes(self.shape.n()),
            Call::RebuildOne => self.shape.strip_bytes(0),
            Call::RebuildTwo => 0..self.shape.strip_bytes(1).end,
            Call::Scrub | Call::Write => 0..0,
        };
        before[wrong].fill(0);
        self.stripe.copy_from_slice(&before);
        self.make(call, By::Plain);
        let expected = self.stripe.to_vec();
        for by in [By::Fiddlefern, By::Isal] {
            if self.has(call, by) {
                self.stripe.copy_from_slice(&before);
                self.make(call, by);
                assert!(*self.stripe == expected, "{} differs", self.shape);
            }
        }
    }
}

/// Zeros at an address that is a multiple of 64.
fn aligned(len: usize) -> &'static mut [u8] {
    let room = vec![0; len + 64].leak();
    let start = room.as_ptr().align_offset(64);
    &mut room[start..start + len]
}
