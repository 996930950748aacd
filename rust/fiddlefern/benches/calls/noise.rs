//! The bytes that stripes are filled with, in the tests as in the bench.

/// Bytes that repeat in no short period.
pub fn noise(len: usize) -> Vec<u8> {
    let byte = |k: usize| (k.wrapping_mul(0x9E37_79B9) >> 13) as u8;
    (0..len).map(byte).collect()
}
