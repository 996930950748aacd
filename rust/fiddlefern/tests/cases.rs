//! The small stripes worked by hand, the table of the bound, and each finding of a scrub.
use fiddlefern::{Finding, Lost, Refusal, Shape};

/// n=5, r=2, s=2, e=1, row 0 = 01 02 04 08 10, row 1 = 20 40 80 03 05.
const B: [u8; 17] = [
    0x01, 0x20, 0x88, 0x02, 0x40, 0x13, 0x04, 0x80, 0x04, 0x08, 0x03, 0x22, 0x10, 0x05, 0x44, 0x1F,
    0xE6,
];

fn shape_b() -> Shape {
    Shape::new(5, 2, 2, 1).expect("a good shape")
}

#[test]
fn encode_gives_the_parities() {
    let mut stripe = [0x11, 0xFF, 0x22, 0xFF, 0x44, 0xFF, 0xFF];
    let shape = Shape::new(3, 1, 1, 1).expect("a good shape");
    assert_eq!(shape.size(), 7);
    assert_eq!(shape.encode(&mut stripe), Ok(()));
    assert_eq!(stripe, [0x11, 0x22, 0x22, 0x44, 0x44, 0x11, 0x77]);

    let mut stripe = B;
    for parity in [2, 5, 8, 11, 14, 15, 16] {
        stripe[parity] = 0xFF;
    }
    assert_eq!(shape_b().encode(&mut stripe), Ok(()));
    assert_eq!(stripe, B);
}

#[test]
fn rebuild_gives_two_strips_back_or_clears_them() {
    let lost = Lost::from_mask(3);
    assert_eq!(shape_b().lost(&[0, 1]), Ok(lost));
    let mut stripe = B;
    stripe[..6].fill(0xFF);
    assert_eq!(shape_b().rebuild(&mut stripe, lost), Ok(()));
    assert_eq!(stripe, B);

    stripe[14] = 0x45;
    let refusal = Refusal::NoSound { lost };
    assert_eq!(shape_b().rebuild(&mut stripe, lost), Err(refusal));
    let mut cleared = B;
    cleared[..6].fill(0);
    cleared[14] = 0x45;
    assert_eq!(stripe, cleared);
}

#[test]
fn write_changes_an_element_and_two_parities() {
    let mut stripe = B;
    assert_eq!(shape_b().write(&mut stripe, 0, 2, 0, &[0xFF]), Ok(()));
    let mut written = B;
    (written[6], written[15], written[14]) = (0xFF, 0xE4, 0xBF);
    assert_eq!(stripe, written);
}

/// Row 0 of n=7, r=4, s=1 has the diagonals 3 4 5 6 0 1 2: a write there changes that U.
#[test]
fn diagonals_of_row_0() {
    let shape = Shape::new(7, 4, 1, 1).expect("a good shape");
    for (strip, diagonal) in [3, 4, 5, 6, 0, 1, 2].into_iter().enumerate() {
        let mut stripe = [0; 39];
        assert_eq!(shape.write(&mut stripe, 0, strip, 0, &[1]), Ok(()));
        let mut written = [0; 39];
        // X(0, strip), U(diagonal), H(0)
        (written[strip * 5], written[diagonal * 5 + 4], written[35]) = (1, 1, 1);
        assert_eq!(stripe, written);
    }
}

#[test]
fn the_greatest_number_of_rows() {
    let table = [
        (3, 1, Some(1)),
        (4, 2, None),
        (6, 1, Some(2)),
        (6, 4, Some(2)),
        (7, 1, Some(5)),
        (7, 2, Some(5)),
        (8, 1, Some(3)),
        (8, 5, Some(3)),
        (9, 3, Some(3)),
        (9, 4, Some(5)),
        (12, 7, Some(5)),
        (31, 2, Some(29)),
    ];
    for (n, s, greatest) in table {
        assert_eq!(Shape::greatest_rows(n, s).ok(), greatest, "n={n} s={s}");
    }
    let code = |n, s| Shape::greatest_rows(n, s).map_err(Refusal::code);
    assert_eq!(
        (code(4, 2), code(33, 1), code(7, 7)),
        (Err(5), Err(1), Err(3))
    );
}

/// Tests what a scrub finds where these bytes of B are changed: the finding, its number, a and b, and what it says.
#[track_caller]
fn finds(changed: &[usize], expected: Finding, code: u8, counts: (usize, usize), text: &str) {
    let mut stripe = B;
    for &at in changed {
        stripe[at] ^= 0x81;
    }
    let found = shape_b().scrub(&stripe).expect("a finding");
    assert_eq!(found, expected);
    assert_eq!((found.code(), found.counts()), (code, counts));
    assert_eq!(found.to_string(), text);
}

#[test]
fn scrub_finds_what_was_changed() {
    finds(&[], Finding::Sound, 0, (0, 0), "the stripe is sound");
    let h = Finding::H { row: 1 };
    finds(&[16], h, 1, (1, 0), "H of row 1 is wrong");
    let u = Finding::U { diagonal: 3 };
    finds(&[11], u, 2, (0, 1), "U of diagonal 3 is wrong");
    let element = Finding::Element { row: 1, strip: 3 };
    let text = "the data element of row 1, strip 3 is wrong";
    finds(&[10], element, 3, (1, 1), text);
}

#[test]
fn scrub_finds_several() {
    // X(0, 0) is on diagonal 2 and X(1, 2) on diagonal 0.
    let data = Finding::Several { a: 2, b: 2 };
    let text = "several are wrong: a is 2 and b is 2";
    finds(&[0, 7], data, 4, (2, 2), text);
    let parities = Finding::Several { a: 0, b: 2 };
    let text = "several are wrong: a is 0 and b is 2";
    finds(&[2, 5], parities, 4, (0, 2), text);
}
