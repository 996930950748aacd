//! A second program for the calls of Fiddlefern, written from the paper alone and by another method: a shape is judged by the rank
//! of the lost places' columns, and lost strips come back by Gaussian elimination. The tests send the same call to the exports and
//! to the model and compare the answer and every byte.
//!
//! - [`shape`]: where the elements stand, and the diagonals
//! - [`lines`]: the lines, and the column of each place
//! - [`eliminate`]: elimination over GF(2)
//! - [`judge`]: the first failing pair of a shape
//! - [`call`], [`calls`]: a call, and what the model answers
//! - [`draw`], [`shapes`], [`stripes`]: random numbers, and what the tests draw with them
//! - [`lent`], [`compare`]: buffers between red zones, and the comparison

pub mod call;
pub mod calls;
pub mod compare;
pub mod draw;
pub mod eliminate;
pub mod judge;
pub mod lent;
pub mod lines;
pub mod shape;
pub mod shapes;
pub mod stripes;
