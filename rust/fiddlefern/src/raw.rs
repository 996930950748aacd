//! The raw calls on Rust's slices: the one module that makes them, and the one with unsafe code.
#![allow(unsafe_code)]
use crate::Shape;
use crate::answer::Answer;
use fiddlefern_sys as sys;

/// The version of the archive, as `fiddlefern_sys` has it.
pub(crate) fn version() -> u64 {
    sys::fiddlefern_version()
}

pub(crate) fn judge(n: usize, r: usize, s: usize, e: usize) -> Answer {
    Answer {
        call: "judge",
        bits: sys::fiddlefern_judge(n, r, s, e),
    }
}

pub(crate) fn encode(shape: Shape, stripe: &mut [u8]) -> Answer {
    let (n, r, s, e) = shape.numbers();
    // SAFETY: pointer and length are those of a slice that is borrowed mutably for the whole call.
    let bits = unsafe { sys::fiddlefern_encode(n, r, s, e, stripe.as_mut_ptr(), stripe.len()) };
    Answer {
        call: "encode",
        bits,
    }
}

pub(crate) fn write(
    shape: Shape,
    stripe: &mut [u8],
    (row, strip, offset): (usize, usize, usize),
    run: &[u8],
) -> Answer {
    let (n, r, s, e) = shape.numbers();
    let (to, len) = (stripe.as_mut_ptr(), stripe.len());
    let (from, run_len) = (run.as_ptr(), run.len());
    // SAFETY: both pointers and lengths are those of slices that are borrowed for the whole call; the
    // stripe is borrowed mutably, so the run does not overlap it.
    let bits =
        unsafe { sys::fiddlefern_write(n, r, s, e, to, len, row, strip, offset, from, run_len) };
    Answer {
        call: "write",
        bits,
    }
}

pub(crate) fn read(shape: Shape, stripe: &[u8], row: usize, strip: usize) -> Answer {
    let (n, r, s, e) = shape.numbers();
    // SAFETY: pointer and length are those of a slice that is borrowed for the whole call.
    let bits =
        unsafe { sys::fiddlefern_read(n, r, s, e, stripe.as_ptr(), stripe.len(), row, strip) };
    Answer { call: "read", bits }
}

pub(crate) fn scrub(shape: Shape, stripe: &[u8]) -> Answer {
    let (n, r, s, e) = shape.numbers();
    // SAFETY: pointer and length are those of a slice that is borrowed for the whole call.
    let bits = unsafe { sys::fiddlefern_scrub(n, r, s, e, stripe.as_ptr(), stripe.len()) };
    Answer {
        call: "scrub",
        bits,
    }
}

pub(crate) fn rebuild(shape: Shape, stripe: &mut [u8], mask: u64) -> Answer {
    let (n, r, s, e) = shape.numbers();
    let (to, len) = (stripe.as_mut_ptr(), stripe.len());
    // SAFETY: pointer and length are those of a slice that is borrowed mutably for the whole call.
    let bits = unsafe { sys::fiddlefern_rebuild(n, r, s, e, to, len, mask) };
    Answer {
        call: "rebuild",
        bits,
    }
}
