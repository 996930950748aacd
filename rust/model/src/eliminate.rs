//! Elimination over GF(2): whether columns depend on each other, and the one solution of equations whose right sides are elements.
use crate::lines::add;

/// Whether some of the columns, one at least, sum to zero.
pub fn dependent(columns: impl Iterator<Item = u64>) -> bool {
    // The reduced column whose highest one is bit b, or zero.
    let mut reduced = [0u64; 64];
    for mut column in columns {
        loop {
            if column == 0 {
                return true;
            }
            let top = &mut reduced[column.ilog2() as usize];
            if *top == 0 {
                *top = column;
                break;
            }
            column ^= *top;
        }
    }
    false
}

/// A line as an equation: the sum of its unknown elements is the sum of its known ones.
pub struct Equation {
    /// Bit u for the unknown element u; two strips have 66 elements at most.
    pub unknown: u128,
    /// The sum of the known elements.
    pub known: Vec<u8>,
}

/// The values of the unknown elements, or nothing where no values serve. Requires that their columns are independent.
pub fn solve(mut equations: Vec<Equation>, unknowns: usize) -> Option<Vec<Vec<u8>>> {
    for u in 0..unknowns {
        let has = |equation: &Equation| equation.unknown >> u & 1 == 1;
        let pivot = u + equations[u..]
            .iter()
            .position(has)
            .expect("an independent column has a pivot");
        equations.swap(u, pivot);
        let (before, rest) = equations.split_at_mut(u);
        let (pivot, after) = rest.split_first_mut().expect("the pivot stands here");
        for equation in before.iter_mut().chain(after).filter(|other| has(other)) {
            equation.unknown ^= pivot.unknown;
            add(&mut equation.known, &pivot.known);
        }
    }
    let surplus = equations.split_off(unknowns);
    let agree = surplus
        .iter()
        .all(|equation| equation.known.iter().all(|&byte| byte == 0));
    agree.then(|| equations.into_iter().map(|line| line.known).collect())
}
