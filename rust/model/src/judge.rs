//! Judging by rank: a pair of strips fails when the columns of its places depend on each other, for then a stripe that is zero
//! outside the pair, and not all zero, is sound.
use std::sync::OnceLock;

use crate::eliminate::dependent;
use crate::lines::columns;
use crate::shape::{N, R, Shape};

/// A lower and an upper strip.
pub type Pair = (usize, usize);

const RS: usize = *R.end() + 1;
const NS: usize = *N.end() + 1;

/// The pair of each shape that was asked for; e has no part in it.
static PAIRS: [OnceLock<Option<Pair>>; NS * RS * NS] = [const { OnceLock::new() }; NS * RS * NS];

/// The first failing pair by lower strip, then by upper strip; a shape that has none is accepted. Requires a shape within the limits.
pub fn first_failing_pair(shape: Shape) -> Option<Pair> {
    *PAIRS[(shape.n * RS + shape.r) * NS + shape.s].get_or_init(|| search(shape))
}

fn search(shape: Shape) -> Option<Pair> {
    let columns = columns(shape);
    let mut pairs =
        (0..=shape.n).flat_map(|lower| (lower + 1..=shape.n).map(move |upper| (lower, upper)));
    let fails = |&(lower, upper): &Pair| {
        let places = shape.strip(lower).chain(shape.strip(upper));
        dependent(places.map(|place| columns[place]))
    };
    pairs.find(fails)
}

/// The refusal of a shape, with its pair where it is weak.
pub fn judge(shape: Shape) -> Result<(), u64> {
    shape.within()?;
    match first_failing_pair(shape) {
        None => Ok(()),
        Some((lower, upper)) => Err(5 | (lower as u64) << 8 | (upper as u64) << 16),
    }
}

/// Every shape within the limits up to this n, with elements of e bytes.
pub fn within(most: usize, e: usize) -> impl Iterator<Item = Shape> {
    let shapes =
        (*N.start()..=most).flat_map(|n| R.flat_map(move |r| (1..n).map(move |s| (n, r, s))));
    shapes.map(move |(n, r, s)| Shape { n, r, s, e })
}
