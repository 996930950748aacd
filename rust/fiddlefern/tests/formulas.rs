//! Every call against the published formulas, written plainly, at sizes on both sides of the blocks that bytes
//! are taken in.
use fiddlefern::{Finding, Shape};

#[path = "../benches/calls/noise.rs"]
mod noise;
#[path = "../benches/calls/plain.rs"]
mod plain;
use noise::noise;
use plain::Plain;

const SHAPES: [(usize, usize, usize); 6] = [
    (3, 1, 1),
    (5, 2, 2),
    (7, 5, 1),
    (8, 3, 5),
    (9, 5, 4),
    (10, 4, 1),
];
const SIZES: [usize; 6] = [1, 15, 127, 128, 129, 600];

/// Makes a test on every shape at every size, with a buffer that is not sound.
fn on_every_shape(test: impl Fn(Shape, Plain, Vec<u8>)) {
    for (n, r, s) in SHAPES {
        for e in SIZES {
            let shape = Shape::new(n, r, s, e).expect("a good shape");
            test(shape, Plain::new(n, r, s, e), noise(shape.size()));
        }
    }
}

/// Every set of one or two strips of a shape.
fn pairs(shape: Shape) -> impl Iterator<Item = [usize; 2]> {
    (0..=shape.n()).flat_map(move |a| (a..=shape.n()).map(move |b| [a, b]))
}

#[test]
fn encode_and_scrub() {
    on_every_shape(|shape, plain, mut stripe| {
        let mut expected = stripe.clone();
        plain.encode(&mut expected);
        let found = shape.scrub(&stripe).expect("a finding");
        assert_eq!(found.counts(), plain.scrub(&stripe), "{shape}");
        assert_eq!(shape.encode(&mut stripe), Ok(()));
        assert!(stripe == expected, "{shape}");
        assert_eq!(shape.scrub(&stripe), Ok(Finding::Sound));
    });
}

#[test]
fn write_on_any_buffer() {
    on_every_shape(|shape, plain, mut stripe| {
        let mut expected = stripe.clone();
        let (row, strip) = (shape.r() - 1, shape.n() / 2);
        let run: Vec<u8> = noise(2 * shape.e()).split_off(shape.e());
        plain.write(&mut expected, row, strip, &run);
        // The element in two runs, the second from the last byte on.
        let (first, last) = run.split_at(shape.e() - 1);
        assert_eq!(shape.write(&mut stripe, row, strip, 0, first), Ok(()));
        let offset = first.len();
        assert_eq!(shape.write(&mut stripe, row, strip, offset, last), Ok(()));
        assert!(stripe == expected, "{shape}");
        assert_eq!(shape.read(&stripe, row, strip), Ok(&run[..]));
    });
}

#[test]
fn rebuild_of_every_pair() {
    on_every_shape(|shape, plain, mut stripe| {
        plain.encode(&mut stripe);
        let sound = stripe.clone();
        for [a, b] in pairs(shape) {
            let lost = shape.lost(&[a, b]).expect("strips of the shape");
            stripe[shape.strip_bytes(a)].fill(0xA5);
            stripe[shape.strip_bytes(b)].fill(0x5A);
            assert_eq!(shape.rebuild(&mut stripe, lost), Ok(()));
            assert!(stripe == sound, "{shape}, lost: {lost}");
        }
    });
}

#[test]
fn rebuild_with_a_damaged_survivor() {
    on_every_shape(|shape, plain, mut stripe| {
        plain.encode(&mut stripe);
        // The last byte of U(n-1).
        stripe[shape.strip_bytes(shape.n() - 1).end - 1] ^= 1;
        for strips in pairs(shape) {
            let lost = shape.lost(&strips).expect("strips of the shape");
            let (mut given, mut expected) = (stripe.clone(), stripe.clone());
            let code = shape.rebuild(&mut given, lost).map_err(|x| x.code());
            if plain.rebuild(&mut expected, &strips) {
                assert_eq!(code, Ok(()), "{shape}, lost: {lost}");
            } else {
                assert_eq!(code, Err(10), "{shape}, lost: {lost}");
                expected = stripe.clone();
                for j in strips {
                    expected[shape.strip_bytes(j)].fill(0);
                }
            }
            assert!(given == expected, "{shape}, lost: {lost}");
        }
    });
}
