//! What the layout says of numbers outside a shape: it panics with a sentence that has the numbers.
use fiddlefern::Shape;
use std::fmt::Debug;
use std::panic::{UnwindSafe, catch_unwind};

/// n=5, r=2, s=2, e=4: six strips, 40 bytes of data.
fn shape() -> Shape {
    Shape::new(5, 2, 2, 4).expect("a good shape")
}

/// Tests that this panics, and what it says.
#[track_caller]
fn panics<T: Debug>(said: &str, call: impl FnOnce(Shape) -> T + UnwindSafe) {
    let panic = catch_unwind(|| call(shape())).expect_err("a panic");
    let text = panic.downcast::<String>().expect("a sentence");
    assert_eq!(*text, said);
}

#[test]
fn strips() {
    let said = "the strip is 6 and must be below 6";
    panics(said, |shape| shape.strip_len(6));
    panics(said, |shape| shape.strip_range(6));
    let said = format!("the strip is {} and must be below 6", usize::MAX);
    panics(&said, |shape| shape.strip_range(usize::MAX));
    let said = "the strip is 5 and must be below 5";
    panics(said, |shape| shape.data_range(5));
    panics(said, |shape| shape.element_range(0, 5));
    panics(said, |shape| shape.diagonal(0, 5));
    panics(said, |shape| shape.touched(1, 5));
    panics(said, |shape| shape.byte_at(1, 5, 0));
}

#[test]
fn rows_and_diagonals() {
    let said = "the row is 2 and must be below 2";
    panics(said, |shape| shape.element_range(2, 0));
    panics(said, |shape| shape.h_range(2));
    panics(said, |shape| shape.diagonal(2, 0));
    panics(said, |shape| shape.touched(2, 0));
    panics(said, |shape| shape.byte_at(2, 0, 0));
    let said = format!("the row is {} and must be below 2", usize::MAX);
    panics(&said, |shape| shape.touched(usize::MAX, usize::MAX));
    panics("the diagonal is 5 and must be below 5", |shape| {
        shape.u_range(5)
    });
}

#[test]
fn bytes() {
    let said = "the byte is 40 and must be below 40";
    panics(said, |shape| shape.locate(shape.capacity()));
    let said = "the offset is 4 and must be below 4";
    panics(said, |shape| shape.byte_at(0, 0, 4));
    let said = format!("the offset is {} and must be below 4", usize::MAX);
    panics(&said, |shape| shape.byte_at(1, 4, usize::MAX));
}

/// The last numbers inside are taken: no limit is one too low.
#[test]
fn the_last_of_each() {
    let shape = shape();
    assert_eq!(shape.size(), 68);
    assert_eq!((shape.strip_range(5), shape.strip_len(5)), (60..68, 8));
    assert_eq!(shape.data_range(4), 48..56);
    assert_eq!(shape.element_range(1, 4), 52..56);
    assert_eq!((shape.h_range(1), shape.u_range(4)), (64..68, 56..60));
    assert_eq!(shape.diagonal(1, 4), 2);
    assert_eq!(shape.touched(1, 4), [52..56, 64..68, 32..36]);
    assert_eq!(shape.locate(39), (1, 4, 3));
    assert_eq!(shape.byte_at(1, 4, 3), 39);
}
