//! Stripes that survive two lost disks: safe calls over the proved library Fiddlefern.
//!
//! A stripe has n data strips and one h-parity strip, one strip for each disk. A [`Shape`] encodes a
//! stripe, makes short writes, reads an element, scrubs, and rebuilds up to two lost strips, on
//! buffers that the caller lends. Nothing is allocated, and no call keeps anything.
//!
//! ```
//! use fiddlefern::{Finding, Shape};
//!
//! # fn main() -> Result<(), fiddlefern::Refusal> {
//! let shape = Shape::new(7, 5, 1, 4096)?; // 7 data strips of 5 rows, shift 1, elements of 4096 bytes
//! let mut stripe = vec![0; shape.size()];
//! shape.encode(&mut stripe)?; // every parity is set
//! shape.write(&mut stripe, 2, 6, 100, b"picture")?; // row 2, strip 6, from byte 100 on
//! stripe[shape.strip_range(6)].fill(0xFF); // two disks are gone
//! stripe[shape.strip_range(0)].fill(0xFF);
//! shape.rebuild(&mut stripe, shape.lost(&[0, 6])?)?; // and come back
//! assert_eq!(&shape.read(&stripe, 2, 6)?[100..107], b"picture");
//! assert_eq!(shape.scrub(&stripe)?, Finding::Sound);
//! # Ok(())
//! # }
//! ```
//!
//! # Where things stand
//!
//! A disk holds [`Shape::strip_range`] of each stripe. The data of a stripe, [`Shape::capacity`] bytes, is cut strip
//! after strip: [`Shape::data_range`] is the part of one strip, [`Shape::locate`] and [`Shape::byte_at`] go from a
//! byte of the data to its row, strip and offset and back. [`Shape::element_range`], [`Shape::h_range`] and
//! [`Shape::u_range`] are the elements, [`Shape::diagonal`] the diagonal of a place. A number outside the shape makes
//! them panic, as an index past the end of a slice does.
//!
//! # A short write needs three elements
//!
//! [`Shape::write`] changes a data element, H of its row and U of its diagonal, on every buffer, sound or not, and no
//! other byte has any influence. So whoever keeps strips on disks reads and writes three elements, not the
//! stripe: load the three ranges of [`Shape::touched`] into an otherwise zero buffer, write, and store the three.
//! Here n=5, r=2, s=2, e=1, and FF is written to row 0, strip 2:
//!
//! ```
//! # use fiddlefern::Shape;
//! # fn main() -> Result<(), fiddlefern::Refusal> {
//! let shape = Shape::new(5, 2, 2, 1)?;
//! let mut stored = [1, 0x20, 0, 2, 0x40, 0, 4, 0x80, 0, 8, 3, 0, 0x10, 5, 0, 0, 0]; // stands for the disks
//! shape.encode(&mut stored)?;
//!
//! let mut room = vec![0; shape.size()];
//! for range in shape.touched(0, 2) {
//!     room[range.clone()].copy_from_slice(&stored[range]); // 3 e bytes are read
//! }
//! shape.write(&mut room, 0, 2, 0, &[0xFF])?;
//! for range in shape.touched(0, 2) {
//!     stored[range.clone()].copy_from_slice(&room[range]); // 3 e bytes are written
//! }
//! assert_eq!(stored[6], 0xFF); // X(0, 2) was 04
//! assert_eq!(stored[15], 0xE4); // H(0) was 1F
//! assert_eq!(stored[14], 0xBF); // U(4) was 44
//! # Ok(())
//! # }
//! ```
//!
//! The buffer can serve one write after another without being cleared. The example `short_write` does this on files.
//!
//! # What is promised
//!
//! Within the limits [`Shape::new`] accepts exactly the shapes of which any two strips can be given back. Every call is
//! proved against its contract: each answer, and every byte of the stripe afterwards, on refusals as on
//! success. A refused call changes no byte, apart from [`Refusal::NoSound`], which leaves the lost
//! strips zero. What is not proved is this crate and the compiler's back end. This crate turns the
//! answers into Rust's types and adds nothing to them; where things stand it computes by itself, and that is
//! tested against the formulas and against what the calls do, for every accepted shape up to n = 13.
//!
//! Neither scrub nor rebuild is a checksum: several wrong elements can look like one or like none, and
//! a damaged survivor can yield another sound stripe. [`Finding`] and [`Shape::rebuild`] say more.
//!
//! # The archive's version
//!
//! The archive says its version, and [`Shape::new`], through which every other call is reached, compares it with
//! this crate's. It panics where they differ, before anything is done to a stripe.
//!
//! # Threads and stack
//!
//! The calls share nothing and can be made from any thread. Each gets by with a stack of 32 KiB.
#![no_std]
#![deny(missing_docs)]
#![deny(unsafe_code)]

mod answer;
mod calls;
mod data;
mod finding;
mod layout;
mod lost;
mod parse;
mod raw;
mod refusal;
mod shape;
mod strips;
mod text;
mod version;

pub use finding::Finding;
pub use lost::Lost;
pub use parse::ParseShapeError;
pub use refusal::Refusal;
pub use shape::Shape;

// The examples of both READMEs, the repository's and the crate's, are run with those of the documentation.
#[cfg(doctest)]
#[doc = include_str!("../../../README.md")]
struct Readme;
#[cfg(doctest)]
#[doc = include_str!("../README.md")]
struct CrateReadme;
