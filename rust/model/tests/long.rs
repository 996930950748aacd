//! Long buffers: the largest stripe as the model, and lengths beyond 32 bits refused.
use model::call::Call;
use model::calls::answer;
use model::compare::{Compare, export};
use model::draw::Draw;
use model::shape::Shape;
use std::alloc::{Layout, alloc_zeroed};
use std::io::{Write, stderr};

/// So many bytes more than a call takes; a length that is cut to 32 bits loses them.
const EXCESS: usize = 1 << 32;

const SHAPE: Shape = Shape {
    n: 7,
    r: 5,
    s: 2,
    e: 64,
};

/// So many zeros and EXCESS more. They take no memory while nobody touches them: the calls must not. Nothing where the machine refuses
/// so many, and that is said.
fn with_excess(len: usize) -> Option<Vec<u8>> {
    let len = EXCESS + len;
    let layout = Layout::array::<u8>(len).expect("a length that a buffer can have");
    // SAFETY: the layout has bytes.
    let bytes = unsafe { alloc_zeroed(layout) };
    if bytes.is_null() {
        // Past the harness, which shows nothing that a passing test prints.
        let _ = writeln!(stderr(), "not tested: no buffer of {len} bytes to be had");
        return None;
    }
    // SAFETY: the allocator of every Vec gave these bytes, by the layout of a Vec of this capacity, and each is set.
    Some(unsafe { Vec::from_raw_parts(bytes, len, len) })
}

/// Makes the call on the export and on the model: the same answer.
fn same_answer(call: Call, stripe: &mut [u8]) {
    // SAFETY: each buffer is valid for its length, no other refers to it during the call, and the two are apart.
    let got = unsafe { export(SHAPE, call, stripe, call.run()) };
    assert_eq!(got, answer(SHAPE, call, stripe), "{call}");
}

fn write(run: &[u8]) -> Call<'_> {
    Call::Write {
        row: 1,
        strip: 2,
        offset: 0,
        run,
    }
}

#[test]
fn the_length_of_a_stripe_is_not_cut_to_32_bits() {
    let mut draw = Draw::new("long stripe");
    let Some(mut long) = with_excess(SHAPE.size()) else {
        return;
    };
    let damaged = draw.bytes(SHAPE.size());
    long[..SHAPE.size()].copy_from_slice(&damaged);
    for call in [
        Call::Encode,
        write(&[]),
        Call::Read { row: 1, strip: 2 },
        Call::Scrub,
        Call::Rebuild { mask: 3 },
    ] {
        same_answer(call, &mut long);
        assert!(
            long[..SHAPE.size()] == damaged,
            "seed {}, {call}: a byte changed",
            draw.seed
        );
    }
}

#[test]
fn the_length_of_a_run_is_not_cut_to_32_bits() {
    let mut draw = Draw::new("long run");
    let Some(run) = with_excess(SHAPE.e) else {
        return;
    };
    let damaged = draw.bytes(SHAPE.size());
    let mut stripe = damaged.clone();
    same_answer(write(&run), &mut stripe);
    assert!(stripe == damaged, "seed {}: a byte changed", draw.seed);
}

#[test]
fn the_largest_stripe() {
    let shape = Shape {
        n: 31,
        r: 29,
        s: 2,
        e: 4096,
    };
    let mut compare = Compare::new("the largest stripe");
    let mut stripe = compare.draw.bytes(shape.size());
    compare.call(shape, Call::Encode, &mut stripe);
    let run = compare.draw.bytes(4096);
    compare.call(
        shape,
        Call::Write {
            row: 28,
            strip: 30,
            offset: 0,
            run: &run,
        },
        &mut stripe,
    );
    compare.call(shape, Call::Read { row: 28, strip: 30 }, &mut stripe);
    for mask in [0, 1, 1 << 31, 3, 1 << 31 | 1 << 30, 1 << 15 | 1 << 7] {
        compare.draw.lose(shape, &mut stripe, mask);
        compare.call(shape, Call::Rebuild { mask }, &mut stripe);
    }
    compare.call(shape, Call::Scrub, &mut stripe);
    assert_eq!(compare.findings, [1, 0, 0, 0, 0], "sound to the end");
    *stripe.last_mut().expect("the stripe has bytes") ^= 1;
    compare.call(shape, Call::Scrub, &mut stripe);
    compare.call(shape, Call::Rebuild { mask: 0 }, &mut stripe);
    assert_eq!(compare.seen(), [0, 10]);
}
