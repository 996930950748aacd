//! Each refusal: when it is given, its number, what comes with it and what it says.
use fiddlefern::{Lost, Refusal, Shape};
use std::error::Error;
use std::fmt::Debug;

/// Tests a refused answer: the number and the text are written out beside each call.
#[track_caller]
fn refused<T: Debug>(answer: Result<T, Refusal>, code: u8, text: &str) {
    let refusal = answer.expect_err("a refusal");
    assert_eq!((refusal.code(), refusal.to_string().as_str()), (code, text));
    assert!((&refusal as &dyn Error).source().is_none());
}

fn shape() -> Shape {
    Shape::new(5, 2, 2, 1).expect("a good shape")
}

#[test]
fn numbers_outside_their_limits() {
    refused(Shape::new(2, 1, 1, 1), 1, "n is 2 and must be 3 to 32");
    refused(Shape::new(33, 1, 1, 1), 1, "n is 33 and must be 3 to 32");
    refused(Shape::new(7, 0, 1, 1), 2, "r is 0 and must be 1 to 32");
    refused(Shape::new(7, 33, 1, 1), 2, "r is 33 and must be 1 to 32");
    refused(Shape::new(7, 5, 0, 1), 3, "s is 0 and must be 1 to 6");
    refused(Shape::new(7, 5, 7, 1), 3, "s is 7 and must be 1 to 6");
    refused(Shape::new(7, 5, 1, 0), 4, "e is 0 and must be 1 to 4096");
    let long = "e is 4097 and must be 1 to 4096";
    refused(Shape::new(7, 5, 1, 4097), 4, long);
    let greatest = format!("n is {} and must be 3 to 32", usize::MAX);
    refused(Shape::new(usize::MAX, 1, 1, 1), 1, &greatest);
}

#[test]
fn checks_run_in_the_order_of_the_numbers() {
    let code = |n, r, s, e| Shape::new(n, r, s, e).map_err(Refusal::code);
    assert_eq!(code(33, 33, 0, 0), Err(1));
    assert_eq!(code(8, 33, 0, 0), Err(2));
    assert_eq!(code(8, 5, 8, 0), Err(3));
    assert_eq!(code(8, 5, 1, 0), Err(4));
    assert_eq!(code(8, 5, 1, 1), Err(5));

    let all = Lost::from_mask(u64::MAX);
    let rebuild = |stripe: &mut [u8], lost| shape().rebuild(stripe, lost).map_err(Refusal::code);
    assert_eq!(rebuild(&mut [1; 16], all), Err(6));
    assert_eq!(rebuild(&mut [1; 17], all), Err(7));
    assert_eq!(rebuild(&mut [1; 17], Lost::from_mask(7)), Err(8));
    let write = |stripe: &mut [u8]| shape().write(stripe, 2, 5, 2, &[0]);
    assert_eq!(write(&mut [1; 16]).map_err(Refusal::code), Err(6));
    assert_eq!(write(&mut [1; 17]).map_err(Refusal::code), Err(9));
}

#[test]
fn weak_shapes_come_with_their_pair() {
    let text = "the shape n=8 r=5 s=1 is weak: strips 0 and 4 cannot both be given back";
    refused(Shape::new(8, 5, 1, 1), 5, text);
    let text = "the shape n=9 r=5 s=3 is weak: strips 0 and 3 cannot both be given back";
    refused(Shape::new(9, 5, 3, 1), 5, text);
}

#[test]
fn lengths_other_than_the_size() {
    for length in [0, 16, 18] {
        let text = &format!("the buffer has {length} bytes and must have 17");
        let stripe = &mut vec![0xA5; length];
        refused(shape().encode(stripe), 6, text);
        refused(shape().write(stripe, 0, 0, 0, &[1]), 6, text);
        refused(shape().read(stripe, 0, 0), 6, text);
        refused(shape().scrub(stripe), 6, text);
        refused(shape().rebuild(stripe, Lost::from_mask(1)), 6, text);
        assert_eq!(*stripe, vec![0xA5; length]);
    }
}

#[test]
fn lost_sets_that_rebuild_refuses() {
    let stripe = &mut [0xA5; 17];
    let mut rebuild = |mask| shape().rebuild(stripe, Lost::from_mask(mask));
    let strip_6 = "strip 6 is named as lost and the last strip is 5";
    let strip_63 = "strip 63 is named as lost and the last strip is 5";
    refused(rebuild(1 << 6), 7, strip_6);
    refused(rebuild(1 << 63 | 7), 7, strip_63);
    refused(shape().lost(&[0, 6]), 7, strip_6);
    let strip_64 = "strip 64 is named as lost and the last strip is 5";
    refused(shape().lost(&[64]), 7, strip_64);

    let three = "3 strips are lost (0, 1, 5) and at most 2 may be";
    let all = "6 strips are lost (0, 1, 2, 3, 4, 5) and at most 2 may be";
    refused(rebuild(0b10_0011), 8, three);
    refused(rebuild(0b11_1111), 8, all);
    assert_eq!(stripe, &[0xA5; 17]);
}

#[test]
fn places_outside() {
    let stripe = &mut [0xA5; 17];
    let row = "the row is 2 and must be below 2";
    let strip = "the strip is 5 and must be below 5";
    refused(shape().read(stripe, 2, 5), 9, row);
    refused(shape().read(stripe, 1, 5), 9, strip);

    let mut write = |row, strip, offset, run| shape().write(stripe, row, strip, offset, run);
    refused(write(2, 5, 0, &[1, 2]), 9, row);
    refused(write(0, 5, 2, &[1, 2]), 9, strip);
    let long = "offset 0 plus length 2 is above 1";
    let late = "offset 2 plus length 0 is above 1";
    refused(write(0, 0, 0, &[1, 2]), 9, long);
    refused(write(0, 0, 2, &[]), 9, late);
    // The sum of offset and length is judged without overflow.
    let great = format!("offset {} plus length 2 is above 1", usize::MAX);
    refused(write(0, 0, usize::MAX, &[1, 2]), 9, &great);
    assert_eq!(stripe, &[0xA5; 17]);
}

#[test]
fn survivors_that_agree_with_no_sound_stripe() {
    let stripe = &mut [0; 17];
    stripe[14] = 1;
    let text = "the survivors agree with no sound stripe (lost: 0, 1)";
    refused(shape().rebuild(stripe, Lost::from_mask(3)), 10, text);
    let text = "the survivors agree with no sound stripe (lost: none)";
    refused(shape().rebuild(stripe, Lost::NONE), 10, text);
}
