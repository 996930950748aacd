//! The lines of a shape, each a list of places whose elements sum to zero in a sound stripe, and the sum of elements.
use crate::shape::Shape;

/// Row i: its data and H(i).
pub fn row(shape: Shape, i: usize) -> Vec<usize> {
    let data = (0..shape.n).map(|j| shape.x(i, j));
    data.chain([shape.h(i)]).collect()
}

/// Diagonal d: the data whose diagonal it is, and U(d).
pub fn diagonal(shape: Shape, d: usize) -> Vec<usize> {
    let mut places = Vec::with_capacity(shape.r + 1);
    for i in 0..shape.r {
        for j in 0..shape.n {
            if shape.diagonal(i, j) == d {
                places.push(shape.x(i, j));
            }
        }
    }
    places.push(shape.u(d));
    places
}

/// Every line: the rows, then the diagonals.
pub fn all(shape: Shape) -> Vec<Vec<usize>> {
    let rows = (0..shape.r).map(|i| row(shape, i));
    rows.chain((0..shape.n).map(|d| diagonal(shape, d)))
        .collect()
}

/// For each place the lines that it is on, bit l for line l; n + r lines are 64 at most.
pub fn columns(shape: Shape) -> Vec<u64> {
    let mut columns = vec![0; shape.places()];
    for (l, line) in all(shape).iter().enumerate() {
        for &place in line {
            columns[place] |= 1 << l;
        }
    }
    columns
}

/// Adds an element to a sum.
pub fn add(sum: &mut [u8], element: &[u8]) {
    assert_eq!(sum.len(), element.len());
    for (byte, other) in sum.iter_mut().zip(element) {
        *byte ^= other;
    }
}

/// The sum of the elements at these places.
pub fn sum(shape: Shape, stripe: &[u8], places: &[usize]) -> Vec<u8> {
    let mut sum = vec![0; shape.e];
    for &place in places {
        add(&mut sum, &stripe[shape.bytes(place)]);
    }
    sum
}
