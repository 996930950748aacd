//! What shapes, findings and refusals say in words.
use crate::{Finding, Lost, Refusal, Shape};
use core::fmt::{Display, Formatter, Result};

/// n, r, s and e.
impl Display for Shape {
    fn fmt(&self, f: &mut Formatter<'_>) -> Result {
        let (n, r, s, e) = self.numbers();
        write!(f, "n={n} r={r} s={s} e={e}")
    }
}

/// The lost strips with commas between them, or `none`.
impl Display for Lost {
    fn fmt(&self, f: &mut Formatter<'_>) -> Result {
        if self.is_empty() {
            return f.write_str("none");
        }
        for (k, strip) in self.strips().enumerate() {
            let between = if k == 0 { "" } else { ", " };
            write!(f, "{between}{strip}")?;
        }
        Ok(())
    }
}

impl Display for Finding {
    fn fmt(&self, f: &mut Formatter<'_>) -> Result {
        match *self {
            Finding::Sound => write!(f, "the stripe is sound"),
            Finding::H { row } => write!(f, "H of row {row} is wrong"),
            Finding::U { diagonal } => write!(f, "U of diagonal {diagonal} is wrong"),
            Finding::Element { row, strip } => {
                write!(f, "the data element of row {row}, strip {strip} is wrong")
            }
            Finding::Several { a, b } => {
                write!(f, "several are wrong: a is {a} and b is {b}")
            }
        }
    }
}

/// A finding with the shape of the stripe that it is about.
pub(crate) struct Told {
    pub(crate) finding: Finding,
    pub(crate) shape: Shape,
}

/// The finding, and the disk to look at where it is one.
impl Display for Told {
    fn fmt(&self, f: &mut Formatter<'_>) -> Result {
        match self.finding {
            Finding::Sound => self.finding.fmt(f),
            Finding::Several { a, b } => {
                counted(f, a, "row")?;
                f.write_str(" and ")?;
                counted(f, b, "diagonal")?;
                f.write_str(" are wrong: more than one element is damaged")?;
                write!(f, ", on any of disks 0 to {}", self.shape.data_strips())
            }
            finding => {
                let disk = finding.strips(self.shape);
                write!(f, "{finding}: look at disk {disk}")
            }
        }
    }
}

/// How many of a kind there are.
fn counted(f: &mut Formatter<'_>, count: usize, kind: &str) -> Result {
    match count {
        0 => write!(f, "no {kind}"),
        1 => write!(f, "1 {kind}"),
        _ => write!(f, "{count} {kind}s"),
    }
}

impl Display for Refusal {
    fn fmt(&self, f: &mut Formatter<'_>) -> Result {
        match *self {
            Refusal::Strips { n } => write!(f, "n is {n} and must be 3 to 32"),
            Refusal::Rows { r } => write!(f, "r is {r} and must be 1 to 32"),
            Refusal::Shift { s, n } => {
                write!(f, "s is {s} and must be 1 to {}", n.saturating_sub(1))
            }
            Refusal::Element { e } => write!(f, "e is {e} and must be 1 to 4096"),
            Refusal::Weak {
                n,
                r,
                s,
                lower,
                upper,
            } => weak(f, (n, r, s), (lower, upper)),
            Refusal::Length { length, size } => {
                write!(f, "the buffer has {length} bytes and must have {size}")
            }
            Refusal::Mask { strip, n } => {
                write!(f, "strip {strip} is named as lost ")?;
                write!(f, "and the last strip is {n}")
            }
            Refusal::Many { lost } => many(f, lost),
            Refusal::Place {
                row,
                strip,
                offset,
                length,
                shape,
            } => outside(f, shape, (row, strip), (offset, length)),
            Refusal::NoSound { lost } => {
                write!(f, "the survivors agree with no sound stripe (lost: {lost})")
            }
        }
    }
}

/// Which shape is weak, and its first failing pair.
fn weak(
    f: &mut Formatter<'_>,
    (n, r, s): (usize, usize, usize),
    (lower, upper): (usize, usize),
) -> Result {
    write!(f, "the shape n={n} r={r} s={s} is weak: ")?;
    write!(f, "strips {lower} and {upper} cannot both be given back")
}

/// How many strips are lost, and which.
fn many(f: &mut Formatter<'_>, lost: Lost) -> Result {
    let count = lost.len();
    write!(f, "{count} strips are lost ({lost}) and at most 2 may be")
}

/// The first of row, strip and run that is outside.
fn outside(
    f: &mut Formatter<'_>,
    shape: Shape,
    (row, strip): (usize, usize),
    (offset, length): (usize, usize),
) -> Result {
    let (n, r, _, e) = shape.numbers();
    if row >= r {
        write!(f, "the row is {row} and must be below {r}")
    } else if strip >= n {
        write!(f, "the strip is {strip} and must be below {n}")
    } else {
        write!(f, "offset {offset} plus length {length} is above {e}")
    }
}
