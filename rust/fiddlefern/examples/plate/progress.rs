//! A bar that fills as stripes are rebuilt. It is shown on standard error, and only where that is a terminal.
use std::io::{self, IsTerminal, Write};

/// How many cells the bar has.
const CELLS: usize = 40;

pub struct Progress {
    all: usize,
    shown: bool,
    /// How many cells were full when it was last drawn.
    full: Option<usize>,
}

impl Progress {
    /// A bar for this many stripes, of which none is done.
    pub fn new(all: usize) -> Progress {
        let shown = io::stderr().is_terminal();
        let mut bar = Progress {
            all,
            shown,
            full: None,
        };
        bar.show(0);
        bar
    }

    /// Shows how many are done; draws only where another cell is full.
    pub fn show(&mut self, done: usize) {
        let full = Some(done * CELLS / self.all);
        if self.shown && self.full != full {
            self.full = full;
            self.draw(done);
        }
    }

    fn draw(&self, done: usize) {
        let full = self.full.unwrap_or(0);
        let (all, rest) = (self.all, CELLS - full);
        let end = if done == all { "\n" } else { "" };
        let mut to = io::stderr();
        // A bar that cannot be drawn is no reason to stop a rebuild.
        let _ = write!(
            to,
            "\r[{:#<full$}{:.<rest$}] {done} of {all} stripes{end}",
            "", ""
        );
        let _ = to.flush();
    }
}
