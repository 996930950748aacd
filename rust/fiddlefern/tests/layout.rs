//! Where things stand, against docs/SPEC.md 2: the elements listed one after the other, the diagonal of a place and the sum of a
//! diagonal as they are printed.
use fiddlefern::Shape;
use std::ops::Range;

mod shapes;

/// What an element of a stripe is.
#[derive(Clone, Copy, PartialEq)]
enum Element {
    X { row: usize, strip: usize },
    U { strip: usize },
    H { row: usize },
}
use Element::{H, U, X};

/// The elements of a stripe in their order: strip j is X(0, j) .. X(r-1, j), U(j), and strip n is H(0) .. H(r-1).
fn listed(n: usize, r: usize) -> Vec<Element> {
    let mut elements = Vec::new();
    for strip in 0..n {
        elements.extend((0..r).map(|row| X { row, strip }));
        elements.push(U { strip });
    }
    elements.extend((0..r).map(|row| H { row }));
    elements
}

/// The strip that an element stands in.
fn strip_of(element: Element, n: usize) -> usize {
    match element {
        X { strip, .. } | U { strip } => strip,
        H { .. } => n,
    }
}

/// Whether the range is exactly the bytes of these elements, which are neighbours.
fn spans(shape: Shape, range: Range<usize>, is_in: impl Fn(Element) -> bool) -> bool {
    let (n, r, e) = (shape.data_strips(), shape.rows(), shape.element_bytes());
    let elements = listed(n, r).into_iter();
    let bytes = elements.flat_map(|x| vec![is_in(x); e]).enumerate();
    range.eq(bytes.filter(|(_, within)| *within).map(|(k, _)| k))
}

#[test]
fn the_bound_is_the_judges() {
    let accepted = |n, s| (1..=32).filter(move |&r| Shape::new(n, r, s, 1).is_ok());
    let mut found = Vec::new();
    for n in 3..=13 {
        for s in 1..n {
            found.extend(accepted(n, s).map(|r| (n, r, s)));
        }
    }
    assert!(found.len() > 100 && found.contains(&(13, 11, 1)));
    assert!(shapes::numbers().eq(found));
}

#[test]
fn numbers_of_a_shape() {
    for (n, r, s) in shapes::numbers() {
        for e in [1, 5, 4096] {
            let shape = Shape::new(n, r, s, e).expect("a good shape");
            assert_eq!((shape.data_strips(), shape.rows()), (n, r));
            assert_eq!((shape.shift(), shape.element_bytes()), (s, e));
            assert_eq!(shape.size(), e * (n * (r + 1) + r));
            assert_eq!((shape.strips(), shape.capacity()), (n + 1, n * r * e));
            assert_eq!((shape.n(), shape.r(), shape.s(), shape.e()), (n, r, s, e));
        }
    }
}

#[test]
fn strips_and_their_data() {
    shapes::every(|shape| {
        let n = shape.data_strips();
        for strip in 0..shape.strips() {
            let bytes = shape.strip_range(strip);
            assert_eq!(shape.strip_len(strip), bytes.len());
            assert_eq!(shape.strip_bytes(strip), bytes);
            assert!(spans(shape, bytes, |x| strip_of(x, n) == strip), "{shape}");
        }
        for strip in 0..n {
            let data = |x| matches!(x, X { strip: j, .. } if j == strip);
            assert!(spans(shape, shape.data_range(strip), data), "{shape}");
        }
    });
}

#[test]
fn elements() {
    shapes::every(|shape| {
        for (row, strip) in places(shape) {
            let x = shape.element_range(row, strip);
            assert!(spans(shape, x, |x| x == X { row, strip }), "{shape}");
        }
        for row in 0..shape.rows() {
            let h = shape.h_range(row);
            assert!(spans(shape, h, |x| x == H { row }), "{shape}");
        }
        for strip in 0..shape.data_strips() {
            let u = shape.u_range(strip);
            assert!(spans(shape, u, |x| x == U { strip }), "{shape}");
        }
    });
}

#[test]
fn diagonals_and_what_a_write_touches() {
    shapes::every(|shape| {
        let [n, r, s] = [shape.data_strips(), shape.rows(), shape.shift()].map(|x| x as i64);
        for (row, strip) in places(shape) {
            let (i, j) = (row as i64, strip as i64);
            let d = (j + i - (r - 1) - s).rem_euclid(n) as usize;
            assert_eq!(shape.diagonal(row, strip), d, "{shape}");
            let touched = [X { row, strip }, H { row }, U { strip: d }];
            for (range, element) in shape.touched(row, strip).into_iter().zip(touched) {
                assert!(spans(shape, range, |x| x == element), "{shape}");
            }
        }
    });
}

/// U(d) is the sum of X(r-1-k, (d + k + s) mod n) for k = 0 .. r-1, which are all that have the diagonal d.
#[test]
fn diagonals_as_their_sums_are_printed() {
    shapes::every(|shape| {
        let (n, r, s) = (shape.data_strips(), shape.rows(), shape.shift());
        for d in 0..n {
            let mut printed: Vec<_> = (0..r).map(|k| (r - 1 - k, (d + k + s) % n)).collect();
            printed.reverse();
            let on_it = places(shape).filter(|&(row, strip)| shape.diagonal(row, strip) == d);
            assert!(on_it.eq(printed), "{shape} {d}");
        }
    });
}

/// The data strip after strip, in a strip row after row, counted byte by byte.
#[test]
fn data_is_cut_strip_after_strip() {
    shapes::every(|shape| {
        let mut byte = 0;
        for strip in 0..shape.data_strips() {
            for row in 0..shape.rows() {
                for offset in 0..shape.element_bytes() {
                    assert_eq!(shape.locate(byte), (row, strip, offset), "{shape}");
                    assert_eq!(shape.byte_at(row, strip, offset), byte, "{shape}");
                    byte += 1;
                }
            }
        }
        assert_eq!(byte, shape.capacity());
    });
}

/// Every row and strip of a data element.
fn places(shape: Shape) -> impl Iterator<Item = (usize, usize)> {
    let rows = 0..shape.rows();
    rows.flat_map(move |row| (0..shape.data_strips()).map(move |strip| (row, strip)))
}
