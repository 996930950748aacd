//! A call as the tests make it on the exports and on the model alike.
use std::fmt;

/// A call with what it takes besides the shape and the stripe.
#[derive(Clone, Copy)]
pub enum Call<'a> {
    Judge,
    Encode,
    Write {
        row: usize,
        strip: usize,
        offset: usize,
        run: &'a [u8],
    },
    Read {
        row: usize,
        strip: usize,
    },
    Scrub,
    Rebuild {
        mask: u64,
    },
}

impl<'a> Call<'a> {
    /// The run of a write; any other call has an empty one.
    pub fn run(self) -> &'a [u8] {
        match self {
            Call::Write { run, .. } => run,
            _ => &[],
        }
    }
}

impl fmt::Display for Call<'_> {
    fn fmt(&self, out: &mut fmt::Formatter) -> fmt::Result {
        match self {
            Call::Judge => write!(out, "judge"),
            Call::Encode => write!(out, "encode"),
            Call::Write {
                row,
                strip,
                offset,
                run,
            } => {
                let len = run.len();
                write!(
                    out,
                    "write, row {row}, strip {strip}, offset {offset}, a run of {len} bytes"
                )
            }
            Call::Read { row, strip } => write!(out, "read, row {row}, strip {strip}"),
            Call::Scrub => write!(out, "scrub"),
            Call::Rebuild { mask } => write!(out, "rebuild, mask {mask:#x}"),
        }
    }
}
