//! A buffer lent to an export, between two red zones that the call must leave alone.
use std::ptr;

use crate::draw::Draw;

/// Bytes of each red zone, at least.
const ZONE: usize = 64;

/// The lent bytes with the zones around them.
pub struct Lent {
    all: Vec<u8>,
    start: usize,
    len: usize,
}

/// What a red zone has at this place.
fn zone(k: usize) -> u8 {
    (k as u8).wrapping_mul(37) ^ 0xA5
}

impl Lent {
    /// A copy of the bytes, beginning at any address modulo 16.
    pub fn new(bytes: &[u8], draw: &mut Draw) -> Lent {
        let start = ZONE + draw.below(16);
        let len = bytes.len();
        let mut all = Vec::with_capacity(start + len + ZONE);
        all.extend((0..start).map(zone));
        all.extend_from_slice(bytes);
        all.extend((0..ZONE).map(zone));
        Lent { all, start, len }
    }

    /// Where the lent bytes begin, and their number; valid also where that is 0.
    pub fn pointer(&mut self) -> *mut [u8] {
        let first = self.all.as_mut_ptr().wrapping_add(self.start);
        ptr::slice_from_raw_parts_mut(first, self.len)
    }

    /// The first byte, counted from the first lent one, that differs from `bytes` or from the red zones: that byte and what it
    /// should be.
    pub fn first_difference(&self, bytes: &[u8]) -> Option<(isize, u8, u8)> {
        assert_eq!(bytes.len(), self.len);
        let end = self.start + self.len;
        if self.all[self.start..end] == *bytes && self.zones_whole() {
            return None;
        }
        let zones_before = (0..self.start).map(zone);
        let expected = zones_before
            .chain(bytes.iter().copied())
            .chain((0..ZONE).map(zone));
        let mut both = (0..).zip(self.all.iter().copied().zip(expected));
        let (k, (is, should)) = both.find(|(_, (is, should))| is != should)?;
        Some((k - self.start as isize, is, should))
    }

    fn zones_whole(&self) -> bool {
        let whole = |bytes: &[u8]| bytes.iter().enumerate().all(|(k, &byte)| byte == zone(k));
        whole(&self.all[..self.start]) && whole(&self.all[self.start + self.len..])
    }
}
