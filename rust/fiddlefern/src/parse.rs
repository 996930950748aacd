//! Shapes read from text, in the form in which they are shown.
use crate::{Refusal, Shape};
use core::error::Error;
use core::fmt::{self, Display, Formatter};
use core::str::FromStr;

/// Why a text is no shape. Its letters are `n`, `r`, `s` and `e`.
///
/// ```
/// use fiddlefern::{ParseShapeError, Shape};
///
/// let error = "n=7 r=five s=1 e=512".parse::<Shape>().unwrap_err();
/// assert_eq!(error, ParseShapeError::NoNumber { letter: 'r' });
/// assert_eq!(error.to_string(), "what stands behind r= is no whole number");
/// let error = "n=8 r=5 s=1 e=512".parse::<Shape>().unwrap_err();
/// assert_eq!(error, ParseShapeError::Refused(Shape::new(8, 5, 1, 512).unwrap_err()));
/// ```
#[derive(Clone, Copy, Debug, PartialEq, Eq, Hash)]
#[non_exhaustive]
pub enum ParseShapeError {
    /// A letter with its number is missing, or does not stand in its place.
    Missing {
        /// The letter.
        letter: char,
    },
    /// What stands behind a letter is no whole number.
    NoNumber {
        /// The letter.
        letter: char,
    },
    /// The number behind a letter is too large for a `usize`.
    TooLarge {
        /// The letter.
        letter: char,
    },
    /// Something stands behind the four numbers.
    Behind,
    /// The library refuses the shape.
    Refused(Refusal),
}

impl Display for ParseShapeError {
    fn fmt(&self, f: &mut Formatter<'_>) -> fmt::Result {
        match *self {
            ParseShapeError::Missing { letter } => {
                write!(f, "{letter}= is missing or not in its place: ")?;
                write!(f, "a shape is written like n=7 r=5 s=1 e=4096")
            }
            ParseShapeError::NoNumber { letter } => {
                write!(f, "what stands behind {letter}= is no whole number")
            }
            ParseShapeError::TooLarge { letter } => {
                write!(f, "the number behind {letter}= is too large")
            }
            ParseShapeError::Behind => write!(f, "something stands behind the four numbers"),
            ParseShapeError::Refused(refusal) => refusal.fmt(f),
        }
    }
}

impl Error for ParseShapeError {}

impl From<Refusal> for ParseShapeError {
    fn from(refusal: Refusal) -> ParseShapeError {
        ParseShapeError::Refused(refusal)
    }
}

/// Reads what [`Display`] shows, `n=7 r=5 s=1 e=4096`: the four numbers in this order, with white space between
/// them. The shape is judged as [`Shape::new`] judges it.
///
/// # Panics
///
/// As [`Shape::new`] does.
///
/// ```
/// # use fiddlefern::Shape;
/// let shape: Shape = "n=7 r=5 s=1 e=4096".parse()?;
/// assert_eq!(shape, Shape::new(7, 5, 1, 4096)?);
/// # Ok::<(), fiddlefern::ParseShapeError>(())
/// ```
impl FromStr for Shape {
    type Err = ParseShapeError;

    fn from_str(text: &str) -> Result<Shape, ParseShapeError> {
        let mut words = text.split_ascii_whitespace();
        let mut next = |letter| number(letter, words.next());
        let (n, r, s, e) = (next('n')?, next('r')?, next('s')?, next('e')?);
        match words.next() {
            None => Ok(Shape::new(n, r, s, e)?),
            Some(_) => Err(ParseShapeError::Behind),
        }
    }
}

/// The number of a word like `n=7`.
fn number(letter: char, word: Option<&str>) -> Result<usize, ParseShapeError> {
    let digits = word
        .and_then(|word| word.strip_prefix(letter)?.strip_prefix('='))
        .ok_or(ParseShapeError::Missing { letter })?;
    // `parse` would take a sign.
    if digits.is_empty() || !digits.bytes().all(|digit| digit.is_ascii_digit()) {
        return Err(ParseShapeError::NoNumber { letter });
    }
    // What has only digits fails only where it is too large.
    digits
        .parse()
        .map_err(|_| ParseShapeError::TooLarge { letter })
}
