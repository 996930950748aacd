//! Elements go bad one at a time; each time a scrub finds which, and a rebuild of its strip mends it. Ends with
//! an error where a finding or a byte is not the right one.
use fiddlefern::{Finding, Refusal, Shape};

/// The strip that holds what a scrub found, if it found one element.
fn strip_of(shape: Shape, finding: Finding) -> Option<usize> {
    match finding {
        Finding::H { .. } => Some(shape.n()),
        // U(d) stands in strip d.
        Finding::U { diagonal } => Some(diagonal),
        Finding::Element { strip, .. } => Some(strip),
        _ => None,
    }
}

/// Bytes to damage, each with what a scrub must find. An element is 4096 bytes, and a strip has 4 of data and one U.
fn damages(shape: Shape) -> [(usize, Finding); 3] {
    let data = shape.strip_bytes(3).start + 2 * 4096 + 700;
    let u = shape.strip_bytes(8).start + 4 * 4096;
    let h = shape.strip_bytes(10).end - 1;
    [
        (data, Finding::Element { row: 2, strip: 3 }),
        (u, Finding::U { diagonal: 8 }),
        (h, Finding::H { row: 3 }),
    ]
}

fn main() -> Result<(), Refusal> {
    let shape = Shape::new(10, 4, 1, 4096)?;
    let mut stripe: Vec<u8> = (0..shape.size())
        .map(|k| (k / 13 + k / 4096) as u8)
        .collect();
    shape.encode(&mut stripe)?;
    let sound = stripe.clone();
    let finding = shape.scrub(&stripe)?;
    println!("A stripe of shape {shape} is encoded: {finding}.");

    for (at, expected) in damages(shape) {
        stripe[at] ^= 0x10;
        let finding = shape.scrub(&stripe)?;
        assert_eq!(finding, expected);
        println!("A bit of byte {at} is turned over. The scrub says: {finding}.");

        let strip = strip_of(shape, finding).expect("one element");
        shape.rebuild(&mut stripe, shape.lost(&[strip])?)?;
        assert_eq!(stripe, sound);
        println!("Strip {strip} is rebuilt, and the stripe is as it was.");
    }

    for (at, _) in damages(shape) {
        stripe[at] ^= 0x10;
    }
    let finding = shape.scrub(&stripe)?;
    assert_eq!(finding, Finding::Several { a: 2, b: 2 });
    println!("All three at once. The scrub says: {finding}. It cannot say which.");
    Ok(())
}
