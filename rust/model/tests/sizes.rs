//! Elements of every size next to an edge of the blocks that bytes are handled in: each call as the model.
use model::call::Call;
use model::compare::Compare;
use model::draw::Draw;
use model::shape::Shape;

const SIZES: [usize; 22] = [
    1, 2, 15, 16, 17, 63, 64, 65, 127, 128, 129, 255, 256, 257, 383, 384, 385, 511, 512, 513, 4095,
    4096,
];

/// The blocks that bytes may be handled in, the greatest first.
const BLOCKS: [usize; 3] = [128, 64, 16];

/// Of each call for each size, at least.
const CALLS: usize = 500;

/// Makes so many calls for each size on accepted shapes, none of them refused for its numbers. `one` makes a call and says whether it
/// is of the kind that the size is tried for; each size has `least` of those.
fn each_size(
    stream: &str,
    calls: usize,
    least: usize,
    one: impl Fn(&mut Compare, Shape) -> (u64, bool),
) -> Compare {
    let mut compare = Compare::new(stream);
    for e in SIZES {
        let (mut done, mut of_kind) = (0, 0);
        for _ in 0..calls {
            let shape = compare.draw.accepted(9, e);
            let (number, kind) = one(&mut compare, shape);
            done += usize::from([0, 10].contains(&number));
            of_kind += usize::from(kind);
        }
        assert_eq!(done, calls, "{stream}: calls with elements of {e} bytes");
        assert!(
            of_kind >= least,
            "{stream}: {of_kind} calls of the kind with elements of {e} bytes"
        );
    }
    println!(
        "{stream}: {} calls, numbers {:?}, findings {:?}",
        compare.calls, compare.numbers, compare.findings
    );
    compare
}

#[test]
fn encode() {
    each_size("encode by size", CALLS, CALLS, |compare, shape| {
        let mut stripe = compare.draw.bytes(shape.size());
        (compare.call(shape, Call::Encode, &mut stripe), true)
    });
}

/// An offset and a length across an edge of the greatest block that the element is longer than.
fn across(draw: &mut Draw, e: usize) -> (usize, usize) {
    let Some(block) = BLOCKS.into_iter().find(|&block| block < e) else {
        let offset = draw.below(e);
        return (offset, draw.within(1..=e - offset));
    };
    let edge = block * draw.within(1..=(e - 1) / block);
    let most = draw.pick(&[1, 2, 17, 130, e]);
    let before = draw.within(1..=most.min(edge));
    let after = draw.within(1..=most.min(e - edge));
    (edge - before, before + after)
}

/// Whether the run has bytes on both sides of such an edge; an element of 16 bytes or fewer has none.
fn crosses(e: usize, offset: usize, len: usize) -> bool {
    let block = BLOCKS.into_iter().find(|&block| block < e);
    block.is_none_or(|block| offset / block < (offset + len - 1) / block)
}

#[test]
fn write() {
    each_size("write by size", CALLS, CALLS, |compare, shape| {
        let draw = &mut compare.draw;
        let sound = draw.chance(50);
        let mut stripe = if sound {
            draw.sound(shape)
        } else {
            draw.bytes(shape.size())
        };
        let (row, strip) = (draw.below(shape.r), draw.below(shape.n));
        let (offset, len) = across(draw, shape.e);
        let run = draw.bytes(len);
        let write = Call::Write {
            row,
            strip,
            offset,
            run: &run,
        };
        (
            compare.call(shape, write, &mut stripe),
            crosses(shape.e, offset, len),
        )
    });
}

#[test]
fn scrub() {
    // The kind: the last byte of one element wrong, and no other byte. It is every other call.
    let compare = each_size("scrub by size", 2 * CALLS, CALLS, |compare, shape| {
        let last_byte = compare.calls.is_multiple_of(2);
        let draw = &mut compare.draw;
        let mut stripe = draw.sound(shape);
        if last_byte {
            let place = draw.place(shape);
            stripe[shape.bytes(place).end - 1] ^= draw.within(1..=255) as u8;
        } else {
            for _ in 0..draw.below(3) {
                let place = draw.place(shape);
                draw.damage(shape, &mut stripe, place);
            }
        }
        (compare.call(shape, Call::Scrub, &mut stripe), last_byte)
    });
    assert!(
        compare.findings.iter().all(|&seen| seen >= CALLS),
        "findings {:?}",
        compare.findings
    );
}

#[test]
fn rebuild() {
    // The kind: two strips lost.
    let compare = each_size("rebuild by size", CALLS, CALLS / 3, |compare, shape| {
        let draw = &mut compare.draw;
        let mut stripe = draw.sound(shape);
        let ones = draw.pick(&[0, 1, 2, 2, 2, 2]);
        let mask = draw.lost(shape.n + 1, ones);
        if draw.chance(40) {
            let place = draw.place(shape);
            draw.damage(shape, &mut stripe, place);
        }
        draw.lose(shape, &mut stripe, mask);
        (
            compare.call(shape, Call::Rebuild { mask }, &mut stripe),
            mask.count_ones() == 2,
        )
    });
    assert_eq!(compare.seen(), [0, 10]);
}
