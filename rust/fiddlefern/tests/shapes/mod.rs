//! The shapes that the layout is tested on: every accepted one up to n = 13, by the published bound.
use fiddlefern::Shape;

/// Element sizes on both sides of the vectors of 16 bytes, and one byte.
const SIZES: [usize; 3] = [1, 5, 17];

/// The greatest r that the bound allows, 0 where none: q is n divided by its smallest prime divisor.
fn bound(n: usize, s: usize) -> usize {
    let divisor = (2..=n).find(|p| n / p * p == n).expect("n is above 1");
    let q = n / divisor;
    if s > q {
        n - s
    } else {
        n.saturating_sub(q + s)
    }
}

/// The numbers of every accepted shape with n up to 13, the element's size left out.
pub fn numbers() -> impl Iterator<Item = (usize, usize, usize)> {
    let shifts = (3..=13).flat_map(|n| (1..n).map(move |s| (n, s)));
    shifts.flat_map(|(n, s)| (1..=bound(n, s)).map(move |r| (n, r, s)))
}

/// Makes a test on each of these shapes at each size.
#[allow(dead_code)] // not every test uses the sizes
pub fn every(test: impl Fn(Shape)) {
    for (n, r, s) in numbers() {
        for e in SIZES {
            test(Shape::new(n, r, s, e).expect("the bound allows it"));
        }
    }
}
