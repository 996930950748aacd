//! The six calls by the paper's formulas, each with the answer packed as the exports pack it.
use crate::call::Call;
use crate::eliminate::{Equation, solve};
use crate::judge::judge;
use crate::lines::{self, sum};
use crate::shape::Shape;

/// Makes a call on the model: the answer, and the stripe as the call leaves it.
pub fn answer(shape: Shape, call: Call, stripe: &mut [u8]) -> u64 {
    checked(shape, call, stripe).unwrap_or_else(|refusal| refusal)
}

fn checked(shape: Shape, call: Call, stripe: &mut [u8]) -> Result<u64, u64> {
    judge(shape)?;
    match call {
        Call::Judge => Ok((shape.size() as u64) << 32),
        _ if stripe.len() != shape.size() => Err(6),
        Call::Encode => Ok(encode(shape, stripe)),
        Call::Write {
            row,
            strip,
            offset,
            run,
        } => write(shape, stripe, (row, strip), offset, run),
        Call::Read { row, strip } => read(shape, row, strip),
        Call::Scrub => Ok(scrub(shape, stripe)),
        Call::Rebuild { mask } => rebuild(shape, stripe, mask),
    }
}

/// H(i) is the sum of row i's data, U(d) that of the data on diagonal d.
pub fn encode(shape: Shape, stripe: &mut [u8]) -> u64 {
    for line in lines::all(shape) {
        let (&parity, data) = line.split_last().expect("a line has its parity");
        let value = sum(shape, stripe, data);
        stripe[shape.bytes(parity)].copy_from_slice(&value);
    }
    0
}

fn outside(shape: Shape, row: usize, strip: usize) -> bool {
    row >= shape.r || strip >= shape.n
}

fn write(
    shape: Shape,
    stripe: &mut [u8],
    (row, strip): (usize, usize),
    offset: usize,
    run: &[u8],
) -> Result<u64, u64> {
    // In 128 bits the sum cannot wrap.
    if outside(shape, row, strip) || offset as u128 + run.len() as u128 > shape.e as u128 {
        return Err(9);
    }
    let [x, u, h] = [
        shape.x(row, strip),
        shape.u(shape.diagonal(row, strip)),
        shape.h(row),
    ];
    for (k, &new) in (offset..).zip(run) {
        let change = stripe[x * shape.e + k] ^ new;
        for place in [x, u, h] {
            stripe[place * shape.e + k] ^= change;
        }
    }
    Ok(0)
}

fn read(shape: Shape, row: usize, strip: usize) -> Result<u64, u64> {
    if outside(shape, row, strip) {
        return Err(9);
    }
    Ok((shape.bytes(shape.x(row, strip)).start as u64) << 32)
}

fn scrub(shape: Shape, stripe: &[u8]) -> u64 {
    let wrong = |line: &Vec<usize>| sum(shape, stripe, line).iter().any(|&byte| byte != 0);
    let rows: Vec<_> = (0..shape.r)
        .filter(|&i| wrong(&lines::row(shape, i)))
        .collect();
    let diagonals: Vec<_> = (0..shape.n)
        .filter(|&d| wrong(&lines::diagonal(shape, d)))
        .collect();
    let found = match (&rows[..], &diagonals[..]) {
        ([], []) => [0, 0, 0],
        (&[row], []) => [1, row, 0],
        ([], &[diagonal]) => [2, 0, diagonal],
        (&[row], &[diagonal]) => [3, row, meeting_strip(shape, row, diagonal)],
        _ => [4, 0, 0],
    };
    let bytes = [rows.len(), diagonals.len()].into_iter().chain(found);
    (1..)
        .zip(bytes)
        .map(|(k, byte)| (byte as u64) << (8 * k))
        .sum()
}

fn meeting_strip(shape: Shape, row: usize, diagonal: usize) -> usize {
    let meets = |&j: &usize| shape.diagonal(row, j) == diagonal;
    (0..shape.n)
        .find(meets)
        .expect("a diagonal has one place in each row")
}

fn rebuild(shape: Shape, stripe: &mut [u8], mask: u64) -> Result<u64, u64> {
    let ones: Vec<usize> = (0..64).filter(|bit| mask >> bit & 1 == 1).collect();
    if ones.iter().any(|&strip| strip > shape.n) {
        return Err(7);
    }
    if ones.len() > 2 {
        return Err(8);
    }
    let lost: Vec<usize> = ones.iter().flat_map(|&strip| shape.strip(strip)).collect();
    for &place in &lost {
        stripe[shape.bytes(place)].fill(0);
    }
    let equation = |line: Vec<usize>| Equation {
        unknown: { lost.iter().enumerate() }
            .filter(|(_, place)| line.contains(place))
            .map(|(u, _)| 1 << u)
            .sum(),
        known: sum(shape, stripe, &line), // the lost places are zero and add nothing
    };
    let equations = lines::all(shape).into_iter().map(equation).collect();
    let values = solve(equations, lost.len()).ok_or(10u64)?;
    for (&place, value) in lost.iter().zip(&values) {
        stripe[shape.bytes(place)].copy_from_slice(value);
    }
    Ok(0)
}
