//! The comparison: one call on the export and on the model, the answers and every lent byte compared.
use fiddlefern_sys as sys;

use crate::call::Call;
use crate::calls::answer;
use crate::draw::Draw;
use crate::lent::Lent;
use crate::shape::Shape;

/// The comparison with what it has seen so far.
pub struct Compare {
    /// What the tests draw from.
    pub draw: Draw,
    /// Calls compared.
    pub calls: usize,
    /// How often each number came back.
    pub numbers: [usize; 11],
    /// How often scrub gave each finding.
    pub findings: [usize; 5],
}

impl Compare {
    /// A comparison that draws from the stream of this name.
    pub fn new(stream: &str) -> Compare {
        Compare {
            draw: Draw::new(stream),
            calls: 0,
            numbers: [0; 11],
            findings: [0; 5],
        }
    }

    /// Makes the call on both and panics where they differ; the number that came back, and the stripe as the call left it.
    pub fn call(&mut self, shape: Shape, call: Call, stripe: &mut [u8]) -> u64 {
        let run = call.run();
        let mut lent_stripe = Lent::new(stripe, &mut self.draw);
        let mut lent_run = Lent::new(run, &mut self.draw);
        // SAFETY: each buffer is valid for its length, no other refers to it during the call, and the two are apart.
        let got = unsafe { export(shape, call, lent_stripe.pointer(), lent_run.pointer()) };
        let should = answer(shape, call, stripe);
        let head = || {
            let (seed, calls) = (self.draw.seed, self.calls);
            format!(
                "seed {seed}, call {calls}: {call}; {shape:?}, {} bytes",
                stripe.len()
            )
        };
        assert!(
            got == should,
            "{}: answered {got:#x}, the model {should:#x}",
            head()
        );
        for (name, lent, bytes) in [("stripe", &lent_stripe, &*stripe), ("run", &lent_run, run)] {
            if let Some((k, is, should)) = lent.first_difference(bytes) {
                panic!(
                    "{}: byte {k} of the {name} is {is:#04x}, the model's {should:#04x}",
                    head()
                );
            }
        }
        self.count(call, should);
        should & 0xFF
    }

    fn count(&mut self, call: Call, answer: u64) {
        self.calls += 1;
        let [number, _, _, finding, ..] = answer.to_le_bytes().map(usize::from);
        self.numbers[number] += 1;
        if let (Call::Scrub, 0) = (call, number) {
            self.findings[finding] += 1;
        }
    }

    /// The numbers that came back at least once.
    pub fn seen(&self) -> Vec<usize> {
        (0..self.numbers.len())
            .filter(|&number| self.numbers[number] > 0)
            .collect()
    }
}

/// Makes the call on the export, a write with this run in place of its own.
///
/// # Safety
///
/// Each buffer is valid for its length, no other refers to it during the call, and the two are apart.
pub unsafe fn export(shape: Shape, call: Call, stripe: *mut [u8], run: *const [u8]) -> u64 {
    let Shape { n, r, s, e } = shape;
    let (bytes, len) = (stripe.cast(), stripe.len());
    // SAFETY: what the calls require is what this one does.
    unsafe {
        match call {
            Call::Judge => sys::fiddlefern_judge(n, r, s, e),
            Call::Encode => sys::fiddlefern_encode(n, r, s, e, bytes, len),
            Call::Write {
                row, strip, offset, ..
            } => sys::fiddlefern_write(
                n,
                r,
                s,
                e,
                bytes,
                len,
                row,
                strip,
                offset,
                run.cast(),
                run.len(),
            ),
            Call::Read { row, strip } => sys::fiddlefern_read(n, r, s, e, bytes, len, row, strip),
            Call::Scrub => sys::fiddlefern_scrub(n, r, s, e, bytes, len),
            Call::Rebuild { mask } => sys::fiddlefern_rebuild(n, r, s, e, bytes, len, mask),
        }
    }
}
