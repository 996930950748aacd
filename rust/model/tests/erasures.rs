//! Every lost set of every accepted shape up to n = 11: the sound stripe comes back, and with any one survivor damaged the answer
//! is the model's.
use model::call::Call;
use model::compare::Compare;
use model::judge::{first_failing_pair, within};
use model::shape::Shape;

const MOST: usize = 11;

/// The empty set, every strip and every pair of strips.
fn lost_sets(strips: usize) -> impl Iterator<Item = u64> {
    let pairs = (0..strips).flat_map(|upper| (0..=upper).map(move |lower| 1 << lower | 1 << upper));
    [0].into_iter().chain(pairs)
}

fn survivors(shape: Shape, mask: u64) -> impl Iterator<Item = usize> {
    let strips = (0..=shape.n).filter(move |strip| mask >> strip & 1 == 0);
    strips.flat_map(move |strip| shape.strip(strip))
}

/// Makes a comparison for each accepted shape, with elements of e bytes, and each lost set.
fn each(stream: &str, e: usize, mut one: impl FnMut(&mut Compare, Shape, u64)) -> Compare {
    let mut compare = Compare::new(stream);
    let accepted = |shape: &Shape| first_failing_pair(*shape).is_none();
    let (mut shapes, mut sets) = (0, 0);
    for shape in within(MOST, e).filter(accepted) {
        shapes += 1;
        for mask in lost_sets(shape.n + 1) {
            one(&mut compare, shape, mask);
            sets += 1;
        }
    }
    println!(
        "{stream}: {shapes} shapes, {sets} lost sets, {} calls, numbers {:?}",
        compare.calls, compare.numbers
    );
    compare
}

#[test]
fn the_sound_stripe_comes_back() {
    let compare = each("erasures", 19, |compare, shape, mask| {
        let sound = compare.draw.sound(shape);
        let mut stripe = sound.clone();
        compare.draw.lose(shape, &mut stripe, mask);
        compare.call(shape, Call::Rebuild { mask }, &mut stripe);
        assert!(
            stripe == sound,
            "{shape:?}, mask {mask:#x}: not the sound stripe"
        );
    });
    assert_eq!(compare.seen(), [0]);
}

#[test]
fn one_damaged_survivor() {
    let compare = each(
        "erasures, one damaged survivor",
        2,
        |compare, shape, mask| {
            let sound = compare.draw.sound(shape);
            for place in survivors(shape, mask) {
                let mut stripe = sound.clone();
                compare.draw.damage(shape, &mut stripe, place);
                compare.draw.lose(shape, &mut stripe, mask);
                compare.call(shape, Call::Rebuild { mask }, &mut stripe);
            }
        },
    );
    assert_eq!(compare.seen(), [0, 10]);
}

#[test]
fn many_damaged_survivors() {
    let compare = each(
        "erasures, many damaged survivors",
        3,
        |compare, shape, mask| {
            let mut stripe = compare.draw.bytes(shape.size());
            compare.call(shape, Call::Rebuild { mask }, &mut stripe);
        },
    );
    assert_eq!(compare.seen(), [0, 10]);
}
