//! A short write needs three elements: made in a buffer that has them and nothing else, it leaves what a write into
//! the whole stripe leaves, and what encoding the changed data anew leaves.
use fiddlefern::Shape;

#[path = "../benches/calls/noise.rs"]
mod noise;
use noise::noise;

const SHAPES: [(usize, usize, usize, usize); 7] = [
    (3, 1, 1, 1),
    (5, 2, 2, 3),
    (7, 5, 1, 64),
    (8, 3, 5, 17),
    (9, 5, 4, 130),
    (13, 11, 1, 5),
    (32, 15, 1, 2),
];

/// The write by three elements: they are loaded into the room, written, and stored. Gives the bytes that were
/// loaded and those that were stored.
fn by_three(
    shape: Shape,
    room: &mut [u8],
    stored: &mut [u8],
    (row, strip, offset): (usize, usize, usize),
    run: &[u8],
) -> (usize, usize) {
    let (mut loaded, mut saved) = (0, 0);
    for range in shape.touched(row, strip) {
        room[range.clone()].copy_from_slice(&stored[range.clone()]);
        loaded += range.len();
    }
    let answer = shape.write(room, row, strip, offset, run);
    assert_eq!(answer, Ok(()));
    for range in shape.touched(row, strip) {
        stored[range.clone()].copy_from_slice(&room[range.clone()]);
        saved += range.len();
    }
    (loaded, saved)
}

/// Writes to every place of a shape, a run of another offset and length each time, into the whole stripe and by three
/// elements. The stripe stays one that encode leaves.
fn on_every_place(shape: Shape, room: impl Fn() -> Vec<u8>) {
    let e = shape.element_bytes();
    let mut whole = noise(shape.size());
    shape.encode(&mut whole).expect("encoded");
    let mut three = whole.clone();
    for row in 0..shape.rows() {
        for strip in 0..shape.data_strips() {
            let offset = (row + strip) % e;
            let length = (e - offset).min(1 + strip);
            let run = &noise(shape.size() + e)[3 * strip + row..][..length];
            let answer = shape.write(&mut whole, row, strip, offset, run);
            assert_eq!(answer, Ok(()));
            let counts = by_three(shape, &mut room(), &mut three, (row, strip, offset), run);
            assert_eq!(counts, (3 * e, 3 * e));
            assert!(three == whole, "{shape} {row} {strip}");
            let mut anew = three.clone();
            shape.encode(&mut anew).expect("encoded");
            assert!(anew == three, "{shape} {row} {strip}");
        }
    }
}

#[test]
fn in_an_otherwise_zero_buffer() {
    for (n, r, s, e) in SHAPES {
        let shape = Shape::new(n, r, s, e).expect("a good shape");
        on_every_place(shape, || vec![0; shape.size()]);
    }
}

/// What else is in the buffer has no influence.
#[test]
fn in_a_buffer_full_of_noise() {
    for (n, r, s, e) in SHAPES {
        let shape = Shape::new(n, r, s, e).expect("a good shape");
        on_every_place(shape, || noise(shape.size() + 3).split_off(3));
    }
}
