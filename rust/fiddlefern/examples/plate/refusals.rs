//! What the library refuses, and what it cannot notice. Each is tried, and what it answers is told; another
//! answer than the promised one is an error.
use fiddlefern::{Finding, Refusal, Shape};

/// The two data strips that are lost in what follows: neighbours, so that a line to spare runs beside both.
const PAIR: [usize; 2] = [2, 3];

/// The bytes of an element.
const E: usize = 64;

/// A shape that cannot hold what it seems to: it is refused before anything is stored.
pub fn weak() -> Result<String, String> {
    match Shape::new(8, 5, 1, E) {
        Err(refusal @ Refusal::Weak { lower, upper, .. }) => Ok(format!(
            "Eight data disks with five rows at shift 1 are refused as weak, with the number {}:\n\
             strips {lower} and {upper} lost together could not be given back. Nothing is stored in such a shape.",
            refusal.code()
        )),
        Err(refusal) => Err(format!(
            "a weak shape was refused for another reason: {refusal}"
        )),
        Ok(shape) => Err(format!("the weak shape {shape} was accepted")),
    }
}

/// A damaged parity whose line the rebuild does not need but tests: it answers 10 and invents nothing.
pub fn damaged(picture: &[u8]) -> Result<String, String> {
    let shape = Shape::new(7, 4, 1, E).map_err(told)?;
    let mut stripe = stored(shape, picture)?;
    let strip =
        spare(shape)?.ok_or_else(|| format!("the shape {shape} has no diagonal to spare"))?;
    stripe[u(shape, strip)] ^= 1;
    let mut before = stripe.clone();
    let lost = shape.lost(&PAIR).map_err(told)?;
    let Err(refusal @ Refusal::NoSound { .. }) = shape.rebuild(&mut stripe, lost) else {
        return Err(format!(
            "U of strip {strip} was damaged, and the rebuild did not answer 10"
        ));
    };
    for strip in PAIR {
        before[shape.strip_bytes(strip)].fill(0);
    }
    if stripe != before {
        return Err("the rebuild answered 10, and left other bytes than it promises".into());
    }
    Ok(format!(
        "Where a line is to spare it is tested. The shape {shape}, strips {} and {} lost, and one byte\n\
         damaged of U of strip {strip}: the lost strips have no element on that diagonal, so the rebuild does not\n\
         need it, but tests it. It answers {}: {refusal}.\n\
         It invents nothing: every byte of the lost strips is zero, and the survivors are as they were.",
        PAIR[0],
        PAIR[1],
        refusal.code()
    ))
}

/// What 10 does not notice, where no line is to spare; and how a scrub would have found it.
pub fn unnoticed(picture: &[u8]) -> Result<String, String> {
    let shape = Shape::new(7, 5, 1, E).map_err(told)?;
    let sound = stored(shape, picture)?;
    let mut stripe = sound.clone();
    stripe[shape.strip_bytes(0).start] ^= 1;
    let found = shape.scrub(&stripe).map_err(told)?;
    let lost = shape.lost(&PAIR).map_err(told)?;
    shape.rebuild(&mut stripe, lost).map_err(told)?;
    let after = shape.scrub(&stripe).map_err(told)?;
    let bytes = PAIR.into_iter().flat_map(|strip| shape.strip_bytes(strip));
    let wrong = bytes.filter(|k| stripe[*k] != sound[*k]).count();
    if found != (Finding::Element { row: 0, strip: 0 }) || after != Finding::Sound || wrong == 0 {
        return Err(format!(
            "before the rebuild a scrub says: {found}; after it: {after}; {wrong} bytes are wrong"
        ));
    }
    Ok(format!(
        "What 10 does not notice: where r is n-2, two lost data strips leave no line to test, and a damaged\n\
         survivor yields another sound stripe. The shape {shape}, the same strips lost, and one byte damaged\n\
         of strip 0: the rebuild answers 0, a scrub then says that {after}, and {wrong} rebuilt bytes are wrong.\n\
         Before the loss a scrub says that {found}. So scrub before disks are lost."
    ))
}

/// A stripe with the beginning of the picture in it.
fn stored(shape: Shape, picture: &[u8]) -> Result<Vec<u8>, String> {
    let mut stripe: Vec<u8> = picture.iter().copied().cycle().take(shape.size()).collect();
    shape.encode(&mut stripe).map_err(told)?;
    Ok(stripe)
}

/// The first surviving strip whose U stands on a diagonal without any element of the lost strips. Asks the
/// library: such a U stays zero where the lost strips alone are written to, one with 1 and one with 2.
fn spare(shape: Shape) -> Result<Option<usize>, String> {
    let mut stripe = vec![0; shape.size()];
    for (strip, byte) in PAIR.into_iter().zip([1, 2]) {
        for row in 0..shape.r() {
            shape
                .write(&mut stripe, row, strip, 0, &[byte])
                .map_err(told)?;
        }
    }
    let mut survivors = (0..shape.n()).filter(|strip| !PAIR.contains(strip));
    Ok(survivors.find(|strip| stripe[u(shape, *strip)] == 0))
}

/// Where the first byte of a strip's U is: below its data elements.
fn u(shape: Shape, strip: usize) -> usize {
    shape.strip_bytes(strip).end - shape.e()
}

fn told(refusal: Refusal) -> String {
    refusal.to_string()
}
