//! Each call on random and boundary numbers and stripes, as the model; every number that the call can give is seen, and no other.
use model::call::Call;
use model::compare::Compare;
use model::draw::Draw;
use model::shape::{E, Shape};

/// Of each call; there are six.
const CALLS: usize = 60_000;

/// Compares so many calls, and that they give these numbers.
fn compare(stream: &str, numbers: &[usize], mut one: impl FnMut(&mut Compare)) -> Compare {
    let mut compare = Compare::new(stream);
    while compare.calls < CALLS {
        one(&mut compare);
    }
    println!(
        "{stream}: {} calls, numbers {:?}, findings {:?}",
        compare.calls, compare.numbers, compare.findings
    );
    assert_eq!(compare.seen(), numbers, "{stream}: the numbers seen");
    compare
}

/// Compares a call on a stripe that has no numbers of its own.
fn plain(stream: &str, numbers: &[usize], call: Call) -> Compare {
    compare(stream, numbers, |compare| {
        let shape = compare.draw.any_shape();
        let mut stripe = compare.draw.stripe(shape);
        compare.call(shape, call, &mut stripe);
    })
}

#[test]
fn judge() {
    compare("judge", &[0, 1, 2, 3, 4, 5], |compare| {
        let shape = compare.draw.any_shape();
        compare.call(shape, Call::Judge, &mut []);
    });
}

#[test]
fn judge_everywhere() {
    let mut compare = Compare::new("judge everywhere");
    // Every n, r and s within the limits and next to them.
    let numbers = 0..=33;
    for n in numbers.clone() {
        for r in numbers.clone() {
            for s in numbers.clone() {
                for e in [0, 1, 4096, 4097] {
                    compare.call(Shape { n, r, s, e }, Call::Judge, &mut []);
                }
            }
        }
    }
    println!(
        "judge everywhere: {} calls, numbers {:?}",
        compare.calls, compare.numbers
    );
}

#[test]
fn encode() {
    plain("encode", &[0, 1, 2, 3, 4, 5, 6], Call::Encode);
}

#[test]
fn scrub() {
    let compare = plain("scrub", &[0, 1, 2, 3, 4, 5, 6], Call::Scrub);
    assert!(
        compare.findings.iter().all(|&seen| seen >= 500),
        "findings {:?}",
        compare.findings
    );
}

/// A row and a strip, inside the shape mostly.
fn place(draw: &mut Draw, shape: Shape) -> (usize, usize) {
    let last = |number: usize| number.clamp(1, 32) - 1;
    (
        draw.near(0..=last(shape.r), 8),
        draw.near(0..=last(shape.n), 8),
    )
}

#[test]
fn read() {
    compare("read", &[0, 1, 2, 3, 4, 5, 6, 9], |compare| {
        let shape = compare.draw.any_shape();
        let mut stripe = compare.draw.stripe(shape);
        let (row, strip) = place(&mut compare.draw, shape);
        compare.call(shape, Call::Read { row, strip }, &mut stripe);
    });
}

/// An offset and a length: inside the element mostly, else at its end, beyond it, or with a sum that wraps.
fn range(draw: &mut Draw, e: usize) -> (usize, usize) {
    let offset = draw.within(0..=e);
    let len = draw.within(0..=e - offset);
    match draw.below(10) {
        0 => (offset, e - offset),
        1 => (offset, e - offset + 1),
        2 => (e + draw.below(2), draw.below(2)),
        3 => (0, e + draw.below(2)),
        4 => (draw.edge(0..=e), len),
        5 => (
            0usize.wrapping_sub(len).wrapping_add(draw.below(e + 1)),
            len,
        ),
        _ => (offset, len),
    }
}

#[test]
fn write() {
    let (mut wrapped, mut empty_at_end) = (0, 0);
    compare("write", &[0, 1, 2, 3, 4, 5, 6, 9], |compare| {
        let shape = compare.draw.any_shape();
        let mut stripe = compare.draw.stripe(shape);
        let (row, strip) = place(&mut compare.draw, shape);
        let (offset, len) = range(&mut compare.draw, shape.e.min(*E.end()));
        let run = compare.draw.bytes(len);
        let number = compare.call(
            shape,
            Call::Write {
                row,
                strip,
                offset,
                run: &run,
            },
            &mut stripe,
        );
        wrapped += usize::from(number == 9 && offset.checked_add(len).is_none());
        empty_at_end += usize::from(number == 0 && offset == shape.e);
    });
    println!(
        "write: {wrapped} sums of offset and length that wrap, {empty_at_end} empty runs at the end"
    );
    assert!(wrapped >= 500 && empty_at_end >= 500);
}

#[test]
fn rebuild() {
    compare("rebuild", &[0, 1, 2, 3, 4, 5, 6, 7, 8, 10], |compare| {
        let shape = compare.draw.any_shape();
        let mut stripe = compare.draw.stripe(shape);
        let mask = compare.draw.mask(shape);
        let whole = shape.within().is_ok() && stripe.len() == shape.size();
        if whole && compare.draw.chance(50) {
            compare.draw.lose(shape, &mut stripe, mask);
        }
        compare.call(shape, Call::Rebuild { mask }, &mut stripe);
    });
}
