//! Shapes read from text: what Display shows comes back, and anything else is refused with a sentence.
use fiddlefern::{ParseShapeError, Refusal, Shape};
use std::error::Error;

mod shapes;

#[test]
fn every_shape_comes_back() {
    for (n, r, s) in shapes::numbers() {
        for e in [1, 4096] {
            let shape = Shape::new(n, r, s, e).expect("a good shape");
            assert_eq!(format!("n={n} r={r} s={s} e={e}"), shape.to_string());
            assert_eq!(shape.to_string().parse(), Ok(shape));
        }
    }
}

#[test]
fn white_space_may_be_wider() {
    let shape = Shape::new(7, 5, 1, 512);
    let text = " n=7\tr=5  s=01 e=512\n";
    assert_eq!(text.parse(), shape.map_err(ParseShapeError::Refused));
}

/// Tests what is wrong with a text, and what is said of it.
#[track_caller]
fn wrong(text: &str, expected: ParseShapeError, said: &str) {
    let error = text.parse::<Shape>().expect_err("no shape");
    assert_eq!((error, error.to_string().as_str()), (expected, said));
    assert!((&error as &dyn Error).source().is_none());
}

#[test]
fn parts_that_are_missing_or_not_in_their_place() {
    let form = "is missing or not in its place: a shape is written like n=7 r=5 s=1 e=4096";
    for (letter, texts) in [
        (
            'n',
            &["", "r=5 s=1 e=1 n=7", "7 5 1 512", "n:7", "N=7", "nn=7"][..],
        ),
        ('r', &["n=7", "n=7 s=1", "n=7 r", "n=7 r:5"]),
        ('s', &["n=7 r=5", "n=7 r=5 e=1 s=1"]),
        ('e', &["n=7 r=5 s=1", "n=7 r=5 s=1 512"]),
    ] {
        for text in texts {
            let error = ParseShapeError::Missing { letter };
            wrong(text, error, &format!("{letter}= {form}"));
        }
    }
    let said = "something stands behind the four numbers";
    wrong("n=7 r=5 s=1 e=1 n=7", ParseShapeError::Behind, said);
}

#[test]
fn numbers_that_are_none_or_too_large() {
    for digits in [
        "",
        "five",
        "-5",
        "+5",
        "5.0",
        "0x5",
        "٥",
        "5_0",
        "5,r=5",
        "99999999999999999999x",
    ] {
        for (letter, text) in [
            ('n', format!("n={digits} r=5 s=1 e=1")),
            ('e', format!("n=7 r=5 s=1 e={digits}")),
        ] {
            let said = format!("what stands behind {letter}= is no whole number");
            wrong(&text, ParseShapeError::NoNumber { letter }, &said);
        }
    }
    let error = ParseShapeError::TooLarge { letter: 's' };
    let text = "n=7 r=5 s=99999999999999999999 e=1";
    wrong(text, error, "the number behind s= is too large");
}

#[test]
fn refusals_carry_through() {
    let refused = |n, r, s, e| Shape::new(n, r, s, e).expect_err("a refusal");
    for (text, refusal) in [
        ("n=33 r=5 s=1 e=1", refused(33, 5, 1, 1)),
        ("n=7 r=0 s=1 e=1", refused(7, 0, 1, 1)),
        ("n=7 r=5 s=7 e=1", refused(7, 5, 7, 1)),
        ("n=7 r=5 s=1 e=4097", refused(7, 5, 1, 4097)),
        ("n=8 r=5 s=1 e=1", refused(8, 5, 1, 1)),
    ] {
        let error = ParseShapeError::from(refusal);
        assert_eq!(error, ParseShapeError::Refused(refusal));
        wrong(text, error, &refusal.to_string());
    }
    assert_eq!(refused(8, 5, 1, 1).code(), 5);
    let most = format!("n={} r=1 s=1 e=1", usize::MAX);
    let refusal = Refusal::Strips { n: usize::MAX };
    wrong(&most, refusal.into(), &refusal.to_string());
}
