//! What the program is asked for, judged before anything is done. What is wrong is said in a sentence.
use crate::given::Given;
use fiddlefern::{Refusal, Shape};
use std::ffi::OsString;
use std::ops::RangeInclusive;
use std::path::PathBuf;

pub const HELP: &str = "\
plate draws a sand figure, stores it on disks, takes two of them away and rebuilds them.

  --n N        data disks, 3 to 32; one more has the parity of the rows (7)
  --r R        rows of a stripe (the most that N and S carry)
  --s S        shift (1)
  --e E        bytes of an element (as many as a line of the picture has)
  --lose A,B   the two disks to take away, 0 to N (one and two thirds of the way)
  --mode A,B   the plate's mode, two different numbers (3,7)
  --size P     the picture is P x P pixels (256)
  --out DIR    the folder for disks and pictures: new, empty, or plate's own (plate-demo)";

const SIZES: RangeInclusive<usize> = 64..=4096;

/// How many pixels a mode's number takes, so that its still lines stand apart.
const APART: usize = 8;

pub struct Args {
    pub shape: Shape,
    /// The lower disk first.
    pub lose: [usize; 2],
    pub mode: [usize; 2],
    pub size: usize,
    pub out: PathBuf,
}

impl Args {
    pub fn new(words: Vec<OsString>) -> Result<Args, String> {
        let given = Given::new(words)?;
        let size = given.number("--size")?.unwrap_or(256);
        if !SIZES.contains(&size) {
            let (least, most) = SIZES.into_inner();
            return Err(format!("--size is {size} and must be {least} to {most}"));
        }
        let shape = shape(&given, size).and_then(|judged| {
            judged.map_err(|refusal| format!("the library refuses this shape: {refusal}"))
        })?;
        let out = given.value("--out").map(PathBuf::from);
        Ok(Args {
            shape,
            lose: lose(&given, shape.n())?,
            mode: mode(&given, size)?,
            size,
            out: out.unwrap_or("plate-demo".into()),
        })
    }
}

/// The shape as the library judges it.
fn shape(given: &Given, size: usize) -> Result<Result<Shape, Refusal>, String> {
    let n = given.number("--n")?.unwrap_or(7);
    let s = given.number("--s")?.unwrap_or(1);
    let e = given.number("--e")?.unwrap_or(size);
    let r = given.number("--r")?;
    let r = r.map_or_else(|| Shape::greatest_rows(n, s), Ok);
    Ok(r.and_then(|r| Shape::new(n, r, s, e)))
}

fn lose(given: &Given, n: usize) -> Result<[usize; 2], String> {
    let lose = given.pair("--lose")?;
    let mut lose = lose.unwrap_or([n / 3, 2 * n / 3 + 1]);
    lose.sort();
    match lose {
        [disk, same] if disk == same => Err(format!(
            "--lose names disk {disk} twice, and two disks are taken away"
        )),
        [_, disk] if disk > n => Err(format!(
            "--lose names disk {disk}, and the last disk is {n}"
        )),
        _ => Ok(lose),
    }
}

fn mode(given: &Given, size: usize) -> Result<[usize; 2], String> {
    let most = size / APART;
    match given.pair("--mode")?.unwrap_or([3, 7]) {
        [a, b] if a == b => Err(format!(
            "in --mode {a},{b} the whole plate is still: the two numbers must differ"
        )),
        [a, b] if a.max(b) > most => Err(format!(
            "--mode has {}, and in a picture of this size the lines stand apart up to {most}",
            a.max(b)
        )),
        mode => Ok(mode),
    }
}
