//! Every call in a thread whose stack is 32 KiB, where its stack goes deepest: a call that needs more ends the
//! whole test.
use fiddlefern::{Finding, Lost, Refusal, Shape};
use fiddlefern_sys as sys;
use model::judge::first_failing_pair;
use std::thread;

#[path = "../benches/calls/noise.rs"]
mod noise;
#[path = "../benches/calls/plain.rs"]
mod plain;
use noise::noise;
use plain::Plain;

const STACK: usize = 32 * 1024;

/// What this call answers when it is made on a small stack.
fn on_small_stack<T: Send>(call: impl FnOnce() -> T + Send) -> T {
    thread::scope(|scope| {
        let small = thread::Builder::new().stack_size(STACK);
        let thread = small.spawn_scoped(scope, call).expect("a thread");
        thread.join().expect("an answer")
    })
}

/// The largest stripe that a shape can have, with data of its own in every element.
fn largest() -> (Shape, Vec<u8>) {
    let shape = on_small_stack(|| Shape::new(31, 29, 1, 4096)).expect("the largest shape");
    (shape, noise(shape.size()))
}

#[test]
fn the_largest_shape() {
    let (shape, mut stripe) = largest();
    let mut expected = stripe.clone();
    let plain = Plain::new(31, 29, 1, 4096);
    plain.encode(&mut expected);
    assert_eq!(on_small_stack(|| shape.encode(&mut stripe)), Ok(()));
    assert!(stripe == expected);

    let run = [0xA5; 4096];
    plain.write(&mut expected, 28, 30, &run);
    assert_eq!(
        on_small_stack(|| shape.write(&mut stripe, 28, 30, 0, &run)),
        Ok(())
    );
    assert!(stripe == expected);
    assert_eq!(on_small_stack(|| shape.read(&stripe, 28, 30)), Ok(&run[..]));

    assert_eq!(on_small_stack(|| shape.scrub(&stripe)), Ok(Finding::Sound));
    stripe[shape.strip_bytes(30)][28 * 4096] ^= 1;
    let found = on_small_stack(|| shape.scrub(&stripe));
    assert_eq!(found, Ok(Finding::Element { row: 28, strip: 30 }));
    assert_eq!(plain.scrub(&stripe), (1, 1));
}

/// The chain is longest where the two lost strips are neighbours, the first counting as the last's: it has all
/// 58 lost data elements. Beside those, a data strip with strip n, one strip, and none.
#[test]
fn rebuild_with_the_longest_chain() {
    let (shape, mut stripe) = largest();
    let plain = Plain::new(31, 29, 1, 4096);
    plain.encode(&mut stripe);
    let sound = stripe.clone();
    for strips in [
        &[0, 1][..],
        &[29, 30],
        &[0, 30],
        &[0, 15],
        &[0, 31],
        &[31],
        &[],
    ] {
        let lost = shape.lost(strips).expect("strips of the shape");
        strips
            .iter()
            .for_each(|&j| stripe[shape.strip_bytes(j)].fill(0xFF));
        assert_eq!(on_small_stack(|| shape.rebuild(&mut stripe, lost)), Ok(()));
        assert!(stripe == sound, "{lost} lost");
    }
    // H(0) is wrong, and no strip is lost.
    stripe[shape.strip_bytes(31)][0] ^= 1;
    assert!(!plain.rebuild(&mut stripe, &[]));
    let refusal = Refusal::NoSound { lost: Lost::NONE };
    assert_eq!(
        on_small_stack(|| shape.rebuild(&mut stripe, Lost::NONE)),
        Err(refusal)
    );
}

/// The search for the pair of a weak shape goes deepest; the model finds the pair by elimination. No [`Shape`] is
/// weak, so these are the raw calls; every one judges first, whatever it is lent.
#[test]
fn weak_shapes_with_the_longest_search() {
    let (stripe, run) = (&mut [0_u8; 1], &[0_u8; 1]);
    let (n, s) = (32, 1);
    for r in 16..32 {
        let pair = first_failing_pair(model::shape::Shape { n, r, s, e: 1 });
        let (lower, upper) = pair.expect("n=32 s=1 is weak from r=16 on");
        let weak = Refusal::Weak {
            n,
            r,
            s,
            lower,
            upper,
        };
        assert_eq!(on_small_stack(|| Shape::new(n, r, s, 1)), Err(weak));
        let answers = on_small_stack(|| {
            let (to, from) = (stripe.as_mut_ptr(), run.as_ptr());
            // SAFETY: the pointers are those of slices of one byte, and the lengths are 1.
            unsafe {
                [
                    sys::fiddlefern_encode(n, r, s, 1, to, 1),
                    sys::fiddlefern_write(n, r, s, 1, to, 1, 0, 0, 0, from, 1),
                    sys::fiddlefern_read(n, r, s, 1, to, 1, 0, 0),
                    sys::fiddlefern_scrub(n, r, s, 1, to, 1),
                    sys::fiddlefern_rebuild(n, r, s, 1, to, 1, 3),
                ]
            }
        });
        let bits = 5 | (lower as u64) << 8 | (upper as u64) << 16;
        assert_eq!(answers, [bits; 5]);
    }
}
