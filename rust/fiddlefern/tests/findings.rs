//! What each finding of a scrub tells: the strips to look at, and the words for them.
use fiddlefern::{Finding, Lost, Refusal, Shape};

/// The shape of the stripe that is worked by hand: six strips.
fn shape_b() -> Shape {
    Shape::new(5, 2, 2, 1).expect("a good shape")
}

/// Tests what a finding of this shape tells, and the strips to look at, as a mask.
#[track_caller]
fn tells(finding: Finding, disks: u64, text: &str) {
    assert_eq!(finding.strips(shape_b()), Lost::from_mask(disks));
    assert_eq!(finding.told(shape_b()).to_string(), text);
}

#[test]
fn a_finding_tells_the_disk_to_look_at() {
    tells(Finding::Sound, 0, "the stripe is sound");
    let h = Finding::H { row: 1 };
    tells(h, 1 << 5, "H of row 1 is wrong: look at disk 5");
    let u = Finding::U { diagonal: 3 };
    tells(u, 1 << 3, "U of diagonal 3 is wrong: look at disk 3");
    let element = Finding::Element { row: 1, strip: 0 };
    let text = "the data element of row 1, strip 0 is wrong: look at disk 0";
    tells(element, 1, text);
}

#[test]
fn several_are_told_in_words() {
    let behind = "are wrong: more than one element is damaged, on any of disks 0 to 5";
    for (a, b, lines) in [
        (1, 2, "1 row and 2 diagonals"),
        (2, 1, "2 rows and 1 diagonal"),
        (2, 0, "2 rows and no diagonal"),
        (0, 5, "no row and 5 diagonals"),
    ] {
        let several = Finding::Several { a, b };
        tells(several, 0b11_1111, &format!("{lines} {behind}"));
    }
}

/// Every strip is to be looked at where several elements are wrong, and a rebuild of every strip is refused.
#[test]
fn several_are_not_rebuilt() {
    let mut stripe = [0; 17];
    (stripe[0], stripe[7]) = (1, 1);
    let damaged = stripe;
    let finding = shape_b().scrub(&stripe).expect("a finding");
    let lost = finding.strips(shape_b());
    let answer = shape_b().rebuild(&mut stripe, lost);
    assert_eq!(answer, Err(Refusal::Many { lost }));
    assert_eq!(stripe, damaged);
}
