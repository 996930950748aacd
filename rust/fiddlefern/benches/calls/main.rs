//! How fast the calls are, against memcpy and against plain Rust, and against ISA-L where it is installed.
mod case;
mod isal;
mod noise;
mod plain;

use case::{By, Call, Case};
use std::time::{Duration, Instant};

const SHAPES: [(usize, usize, usize); 3] = [(7, 5, 1), (10, 4, 1), (31, 29, 1)];
const SIZES: [usize; 2] = [512, 4096];
const CALLS: [(Call, &str); 5] = [
    (Call::Encode, "encode"),
    (Call::Scrub, "scrub"),
    (Call::Write, "write"),
    (Call::RebuildOne, "rebuild 1"),
    (Call::RebuildTwo, "rebuild 2"),
];
const BYS: [By; 4] = [By::Fiddlefern, By::Plain, By::Memcpy, By::Isal];

/// What the table shows.
const WHAT: &str = "\
The calls of Fiddlefern, and how many times as fast they are as others: 1.00 is level.
memcpy copies as many bytes as the call is about: the stripe's data, or the element written.
plain is the same call by the published formulas in Rust, its lines listed beforehand, with
vectors of 16 bytes as the archive has them. ISA-L is its xor_gen, where libisal is there.";

/// How often every entry is taken, in turn, so that what else the machine does meets all of them.
const TURNS: usize = 500;
/// How long one taking of an entry is meant to last.
const TAKING: Duration = Duration::from_micros(40);

/// One call on one case: the least seconds that each of BYS took.
struct Row {
    case: usize,
    call: Call,
    name: &'static str,
    least: [f64; 4],
}

fn main() {
    let shapes = SHAPES
        .iter()
        .flat_map(|&(n, r, s)| SIZES.map(|e| (n, r, s, e)));
    let mut cases: Vec<Case> = shapes.map(Case::new).collect();
    let mut rows = Vec::new();
    for (case, on) in cases.iter_mut().enumerate() {
        for (call, name) in CALLS {
            on.test(call);
            rows.push(Row {
                case,
                call,
                name,
                least: [f64::INFINITY; 4],
            });
        }
    }
    for _ in 0..TURNS {
        for row in &mut rows {
            for (by, least) in BYS.into_iter().zip(&mut row.least) {
                let case = &mut cases[row.case];
                if case.has(row.call, by) {
                    *least = least.min(take(case, row.call, by));
                }
            }
        }
    }
    print(&cases, &rows);
}

/// The seconds of one call, over as many as TAKING needs; a first one, which brings the bytes near, is not counted.
fn take(case: &mut Case, call: Call, by: By) -> f64 {
    let start = Instant::now();
    case.make(call, by);
    let calls = (TAKING.as_nanos() / start.elapsed().as_nanos().max(1)).clamp(1, 1000) as u32;
    let start = Instant::now();
    (0..calls).for_each(|_| case.make(call, by));
    start.elapsed().as_secs_f64() / f64::from(calls)
}

fn print(cases: &[Case], rows: &[Row]) {
    println!("{WHAT}\nThe best of {TURNS} turns, each entry once in a turn.");
    if cfg!(target_feature = "avx") {
        println!("Here plain was compiled for wider vectors than the archive's 16 bytes.");
    }
    print!("\n{:<10}{:>21}{:>9}", "call", "shape", "bytes");
    println!(
        "{:>9}{:>7}{:>7}{:>7}{:>7}",
        "µs", "GB/s", "memcpy", "plain", "ISA-L"
    );
    for row in rows {
        let case = &cases[row.case];
        let (bytes, shape) = (case.bytes(row.call), case.shape.to_string());
        let [fiddlefern, plain, memcpy, isal] = row.least;
        let (us, speed) = (fiddlefern * 1e6, bytes as f64 / fiddlefern / 1e9);
        print!("{:<10}{shape:>21}{bytes:>9}{us:>9.3}{speed:>7.1}", row.name);
        for other in [memcpy, plain, isal] {
            match other / fiddlefern {
                ratio if ratio.is_finite() => print!("{ratio:>7.2}"),
                _ => print!("{:>7}", "-"),
            }
        }
        println!();
    }
}
