//! The code by its published formulas, written plainly over slices: what the calls are compared with. It
//! shares nothing with the library, and takes its arguments to be in order.

/// A sum is formed in blocks of this many bytes: of 32, 64, 128 and 256 the fastest at n=7, r=5.
const BLOCK: usize = 128;

/// A line is the byte offsets of its elements, its parity last.
type Line = Vec<usize>;

/// The lines of a shape, first the rows and then the diagonals.
pub struct Plain {
    n: usize,
    r: usize,
    s: usize,
    e: usize,
    pub lines: Vec<Line>,
}

impl Plain {
    pub fn new(n: usize, r: usize, s: usize, e: usize) -> Plain {
        let at = |row: usize, strip: usize| (strip * (r + 1) + row) * e;
        // The strip j where row i meets diagonal d: (j + i - (r-1) - s) mod n is d.
        let meets = |i: usize, d: usize| (d + (r - 1) + s - i) % n;
        let row = |i: usize| (0..=n).map(|j| at(i, j)).collect();
        let diagonal = |d: usize| {
            let data = (0..r).map(|i| at(i, meets(i, d)));
            data.chain([at(r, d)]).collect()
        };
        let lines = (0..r).map(row).chain((0..n).map(diagonal)).collect();
        Plain { n, r, s, e, lines }
    }

    /// Sets every H and U.
    pub fn encode(&self, stripe: &mut [u8]) {
        for line in &self.lines {
            let (parity, data) = line.split_last().expect("a line has a parity");
            self.set_to_sum(stripe, *parity, data);
        }
    }

    /// Replaces a data element, and adds old XOR new to H of its row and U of its diagonal.
    pub fn write(&self, stripe: &mut [u8], row: usize, strip: usize, new: &[u8]) {
        let at = (strip * (self.r + 1) + row) * self.e;
        let [h, u] = self.lines_through(at).map(|line| {
            let places = &self.lines[line.expect("data is in two lines")];
            places[places.len() - 1]
        });
        let elements = [at, h, u].map(|at| at..at + self.e);
        let [data, h, u] = stripe.get_disjoint_mut(elements).expect("three elements");
        for (((x, h), u), new) in data.iter_mut().zip(h).zip(u).zip(new) {
            let change = *x ^ new;
            *x = *new;
            *h ^= change;
            *u ^= change;
        }
    }

    /// How many rows and how many diagonals do not sum to zero.
    pub fn scrub(&self, stripe: &[u8]) -> (usize, usize) {
        let wrong = |lines: &[Line]| {
            let wrong = lines.iter().filter(|line| !self.sums_to_zero(stripe, line));
            wrong.count()
        };
        let (rows, diagonals) = self.lines.split_at(self.r);
        (wrong(rows), wrong(diagonals))
    }

    /// Gives the lost strips back: a line with one unknown gives it, until no such line is left. Tells
    /// whether nothing stays unknown and all the lines that gave nothing sum to zero.
    pub fn rebuild(&self, stripe: &mut [u8], lost: &[usize]) -> bool {
        let is_lost = |at: &usize| lost.contains(&(at / self.e / (self.r + 1)));
        let unknowns = |line: &Line| line.iter().copied().filter(is_lost).collect();
        let mut unknown: Vec<Line> = self.lines.iter().map(unknowns).collect();
        let mut surplus = vec![true; self.lines.len()];
        let with_one = |line: &usize| unknown[*line].len() == 1;
        let mut ready: Vec<usize> = (0..self.lines.len()).filter(with_one).collect();
        while let Some(line) = ready.pop() {
            let [target] = unknown[line][..] else {
                continue; // another line gave it
            };
            let others = self.lines[line].iter().copied().filter(|&at| at != target);
            self.set_to_sum(stripe, target, &others.collect::<Line>());
            surplus[line] = false;
            for line in self.lines_through(target).into_iter().flatten() {
                unknown[line].retain(|&at| at != target);
                if unknown[line].len() == 1 {
                    ready.push(line);
                }
            }
        }
        let mut left = self
            .lines
            .iter()
            .zip(surplus)
            .filter(|(_, surplus)| *surplus);
        unknown.iter().all(Vec::is_empty) && left.all(|(line, _)| self.sums_to_zero(stripe, line))
    }

    /// The row and the diagonal of the element at this offset; a parity has one of them.
    fn lines_through(&self, at: usize) -> [Option<usize>; 2] {
        let (row, strip) = (at / self.e % (self.r + 1), at / self.e / (self.r + 1));
        let diagonal = (strip + row + self.n - (self.r - 1) - self.s) % self.n;
        match (row, strip) {
            (_, strip) if strip == self.n => [Some(row), None],
            (row, _) if row == self.r => [None, Some(self.r + strip)],
            _ => [Some(row), Some(self.r + diagonal)],
        }
    }

    fn set_to_sum(&self, stripe: &mut [u8], target: usize, sources: &[usize]) {
        let whole = self.e - self.e % BLOCK;
        for k in (0..whole).step_by(BLOCK) {
            let sum = block_sum(stripe, sources, k);
            stripe[target + k..target + k + BLOCK].copy_from_slice(&sum);
        }
        for k in whole..self.e {
            stripe[target + k] = byte_sum(stripe, sources, k);
        }
    }

    fn sums_to_zero(&self, stripe: &[u8], line: &[usize]) -> bool {
        let whole = self.e - self.e % BLOCK;
        let mut blocks = (0..whole).step_by(BLOCK);
        blocks.all(|k| block_sum(stripe, line, k).iter().fold(0, |or, x| or | x) == 0)
            && (whole..self.e).all(|k| byte_sum(stripe, line, k) == 0)
    }
}

fn block_sum(stripe: &[u8], sources: &[usize], k: usize) -> [u8; BLOCK] {
    let mut sum = [0; BLOCK];
    for at in sources {
        let block: &[u8; BLOCK] = stripe[at + k..].first_chunk().expect("a whole block");
        for (x, y) in sum.iter_mut().zip(block) {
            *x ^= y;
        }
    }
    sum
}

fn byte_sum(stripe: &[u8], sources: &[usize], k: usize) -> u8 {
    sources.iter().fold(0, |sum, at| sum ^ stripe[at + k])
}
