//! The model against the paper: its worked stripes, its table, and its bound for every shape within the limits.
use model::call::Call;
use model::calls::answer;
use model::judge::{first_failing_pair, within};
use model::shape::{N, Shape};

const B: Shape = Shape {
    n: 5,
    r: 2,
    s: 2,
    e: 1,
};
const B_STRIPE: [u8; 17] = [
    0x01, 0x20, 0x88, 0x02, 0x40, 0x13, 0x04, 0x80, 0x04, 0x08, 0x03, 0x22, 0x10, 0x05, 0x44, 0x1F,
    0xE6,
];

#[test]
fn a_and_b_are_encoded() {
    let a = Shape {
        n: 3,
        r: 1,
        s: 1,
        e: 1,
    };
    let mut stripe = [0x11, 0xFF, 0x22, 0xFF, 0x44, 0xFF, 0xFF];
    assert_eq!(answer(a, Call::Encode, &mut stripe), 0);
    assert_eq!(stripe, [0x11, 0x22, 0x22, 0x44, 0x44, 0x11, 0x77]);

    let mut stripe = B_STRIPE;
    for parity in [2, 5, 8, 11, 14, 15, 16] {
        stripe[parity] ^= 0x5A;
    }
    assert_eq!(answer(B, Call::Encode, &mut stripe), 0);
    assert_eq!(stripe, B_STRIPE);
}

#[test]
fn c_comes_back_or_is_refused() {
    let mut stripe = B_STRIPE;
    stripe[..6].fill(0xFF);
    assert_eq!(answer(B, Call::Rebuild { mask: 3 }, &mut stripe), 0);
    assert_eq!(stripe, B_STRIPE);

    stripe[14] = 0x45;
    let mut refused = stripe;
    refused[..6].fill(0);
    assert_eq!(answer(B, Call::Rebuild { mask: 3 }, &mut stripe), 10);
    assert_eq!(stripe, refused);
}

#[test]
fn d_changes_three_bytes() {
    let mut stripe = B_STRIPE;
    let write = Call::Write {
        row: 0,
        strip: 2,
        offset: 0,
        run: &[0xFF],
    };
    assert_eq!(answer(B, write, &mut stripe), 0);
    let mut written = B_STRIPE;
    (written[6], written[15], written[14]) = (0xFF, 0xE4, 0xBF);
    assert_eq!(stripe, written);
}

#[test]
fn b_and_e_have_the_published_diagonals() {
    let row = |shape: Shape, i| {
        (0..shape.n)
            .map(|j| shape.diagonal(i, j))
            .collect::<Vec<_>>()
    };
    assert_eq!(row(B, 0), [2, 3, 4, 0, 1]);
    assert_eq!(row(B, 1), [3, 4, 0, 1, 2]);
    assert_eq!(
        row(
            Shape {
                n: 7,
                r: 4,
                s: 1,
                e: 1
            },
            0
        ),
        [3, 4, 5, 6, 0, 1, 2]
    );
}

#[test]
fn the_rank_gives_the_published_table() {
    let table = [
        (3, 1, 1),
        (4, 2, 0),
        (6, 1, 2),
        (6, 4, 2),
        (7, 1, 5),
        (7, 2, 5),
        (8, 1, 3),
        (8, 5, 3),
        (9, 3, 3),
        (9, 4, 5),
        (12, 7, 5),
        (31, 2, 29),
    ];
    for (n, s, greatest) in table {
        for r in 1..=32 {
            let accepted = first_failing_pair(Shape { n, r, s, e: 1 }).is_none();
            assert_eq!(accepted, r <= greatest, "n {n}, s {s}, r {r}");
        }
    }
}

#[test]
fn the_rank_gives_the_published_bound() {
    let mut shapes = 0;
    for shape in within(*N.end(), 1) {
        let Shape { n, r, s, .. } = shape;
        let smallest_prime_divisor = (2..=n)
            .find(|divisor| n % divisor == 0)
            .expect("n divides itself");
        let q = n / smallest_prime_divisor;
        let above = if s > q { r + s > n } else { r + q + s > n };
        assert_eq!(first_failing_pair(shape).is_some(), above, "{shape:?}");
        shapes += 1;
    }
    assert_eq!(shapes, 32 * (2..=31).sum::<usize>());
}
