//! What crosses the boundary: empty slices, parts of the lent slice, limits, lost sets.
use fiddlefern::{Lost, Shape};

#[path = "../benches/calls/noise.rs"]
mod noise;
use noise::noise;

#[test]
fn empty_runs_change_nothing() {
    let shape = Shape::new(5, 2, 2, 3).expect("a good shape");
    let mut stripe = noise(shape.size());
    for offset in 0..=3 {
        assert_eq!(shape.write(&mut stripe, 1, 4, offset, &[]), Ok(()));
    }
    assert_eq!(stripe, noise(shape.size()));
    let refusal = shape
        .write(&mut stripe, 1, 4, 4, &[])
        .expect_err("offset above e");
    assert_eq!(refusal.code(), 9);
}

#[test]
fn empty_slices_have_no_pointer_to_follow() {
    let shape = Shape::new(3, 1, 1, 1).expect("a good shape");
    assert_eq!(shape.encode(&mut []).map_err(|x| x.code()), Err(6));
    assert_eq!(
        shape.write(&mut [], 0, 0, 0, &[]).map_err(|x| x.code()),
        Err(6)
    );
    assert_eq!(shape.read(&[], 0, 0).map_err(|x| x.code()), Err(6));
    assert_eq!(shape.scrub(&[]).map_err(|x| x.code()), Err(6));
    assert_eq!(
        shape.rebuild(&mut [], Lost::NONE).map_err(|x| x.code()),
        Err(6)
    );
}

#[test]
fn read_hands_back_a_part_of_the_lent_slice() {
    let shape = Shape::new(5, 2, 2, 3).expect("a good shape");
    let stripe = noise(shape.size());
    for (row, strip) in (0..2).flat_map(|row| (0..5).map(move |strip| (row, strip))) {
        let element = shape.read(&stripe, row, strip).expect("an element");
        let place = &stripe[(strip * 3 + row) * 3..][..3];
        assert!(std::ptr::eq(element, place));
    }
}

#[test]
fn strips_stand_one_after_the_other() {
    let shape = Shape::new(31, 29, 1, 4096).expect("the largest shape");
    assert_eq!(shape.size(), 4096 * (31 * 30 + 29));
    assert_eq!(
        (shape.n(), shape.r(), shape.s(), shape.e()),
        (31, 29, 1, 4096)
    );
    assert_eq!(shape.to_string(), "n=31 r=29 s=1 e=4096");
    let mut end = 0;
    for strip in 0..=31 {
        let bytes = shape.strip_bytes(strip);
        let elements = if strip < 31 { 30 } else { 29 };
        assert_eq!((bytes.start, bytes.len()), (end, elements * 4096));
        end = bytes.end;
    }
    assert_eq!(end, shape.size());
}

#[test]
#[should_panic(expected = "the strip is above n")]
fn no_strip_is_above_n() {
    let shape = Shape::new(3, 1, 1, 1).expect("a good shape");
    let _ = shape.strip_bytes(4);
}

#[test]
fn lost_sets() {
    let shape = Shape::new(5, 2, 2, 1).expect("a good shape");
    assert_eq!(shape.lost(&[]), Ok(Lost::NONE));
    assert_eq!(shape.lost(&[5, 0, 5]), Ok(Lost::from_mask(0b10_0001)));
    assert_eq!(Lost::default(), Lost::NONE);
    assert!(Lost::NONE.is_empty() && Lost::NONE.strips().next().is_none());
    let all = Lost::from_mask(u64::MAX);
    assert_eq!((all.len(), all.mask()), (64, u64::MAX));
    assert!(all.strips().eq(0..64) && all.contains(63) && !all.contains(64));
}
