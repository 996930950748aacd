//! A small generator of random numbers (splitmix64), so that a seed gives the same calls on every machine.
use std::env;

/// The environment variable that sets the seed.
pub const VARIABLE: &str = "FIDDLEFERN_SEED";
const DEFAULT: u64 = 20_080_404;

/// A stream of random numbers.
#[derive(Clone)]
pub struct Draw {
    /// The seed of the run, for reports.
    pub seed: u64,
    state: u64,
}

impl Draw {
    /// The stream of this name; printed with the seed of the run.
    pub fn new(stream: &str) -> Draw {
        let seed = env::var(VARIABLE).map_or(DEFAULT, |text| {
            text.parse()
                .unwrap_or_else(|_| panic!("{VARIABLE}={text} is no 64-bit number"))
        });
        println!("{VARIABLE}={seed}, {stream}");
        let state = stream
            .bytes()
            .fold(seed, |state, byte| mix(state ^ u64::from(byte)));
        Draw { seed, state }
    }

    /// Any 64-bit number.
    pub fn number(&mut self) -> u64 {
        self.state = self.state.wrapping_add(0x9E37_79B9_7F4A_7C15);
        mix(self.state)
    }

    /// A number below `bound`.
    pub fn below(&mut self, bound: usize) -> usize {
        assert!(bound > 0);
        (self.number() % bound as u64) as usize
    }

    /// Yes in `percent` of 100 cases.
    pub fn chance(&mut self, percent: usize) -> bool {
        self.below(100) < percent
    }

    /// One of these.
    pub fn pick<T: Copy>(&mut self, from: &[T]) -> T {
        from[self.below(from.len())]
    }

    /// Fills with random bytes.
    pub fn fill(&mut self, bytes: &mut [u8]) {
        for chunk in bytes.chunks_mut(8) {
            chunk.copy_from_slice(&self.number().to_le_bytes()[..chunk.len()]);
        }
    }

    /// So many random bytes.
    pub fn bytes(&mut self, len: usize) -> Vec<u8> {
        let mut bytes = vec![0; len];
        self.fill(&mut bytes);
        bytes
    }
}

fn mix(mut z: u64) -> u64 {
    z = (z ^ (z >> 30)).wrapping_mul(0xBF58_476D_1CE4_E5B9);
    z = (z ^ (z >> 27)).wrapping_mul(0x94D0_49BB_1331_11EB);
    z ^ (z >> 31)
}
