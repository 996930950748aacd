//! Lost sets put together from strips, and what a rebuild makes of strips at the ends of words: 31, 32, 63, 64 and
//! the greatest number.
use fiddlefern::{Lost, Shape};

#[path = "../benches/calls/noise.rs"]
mod noise;
use noise::noise;

#[test]
fn a_strip_is_its_bit_or_all_ones() {
    let mut bit = 1_u64;
    for strip in 0..64 {
        let lost = Lost::strip(strip);
        assert_eq!((lost.mask(), lost.len()), (bit, 1));
        assert!(lost.contains(strip) && lost.strips().eq([strip]));
        bit = bit.wrapping_mul(2);
    }
    for strip in [64, 65, 95, 96, 127, 128, 1 << 32, usize::MAX] {
        assert_eq!(Lost::strip(strip).mask(), u64::MAX, "{strip}");
    }
}

#[test]
fn sets_are_put_together() {
    let mut lost = Lost::strip(3) | Lost::strip(40);
    assert_eq!(lost.mask(), 0x100_0000_0008);
    lost |= Lost::strip(0);
    assert_eq!(lost, [40, 0, 3, 0].into_iter().collect());
    assert_eq!(lost | Lost::NONE, lost);
    assert_eq!((0..0).collect::<Lost>(), Lost::NONE);
    assert_eq!((0..64).collect::<Lost>().mask(), u64::MAX);
    assert_eq!([1, 64].into_iter().collect::<Lost>().mask(), u64::MAX);
}

#[test]
fn sets_are_ordered_as_their_masks_are() {
    let masks = [0, 1, 2, 3, 0x8000_0000, 0x1_0000_0000, 1 << 63, u64::MAX];
    for a in masks {
        for b in masks {
            let sets = (Lost::from_mask(a), Lost::from_mask(b));
            assert_eq!(sets.0.cmp(&sets.1), a.cmp(&b));
            assert_eq!(sets.0.partial_cmp(&sets.1), Some(a.cmp(&b)));
        }
    }
}

/// A sound stripe of this n, with its strips filled with noise of their own.
fn stripe(n: usize) -> (Shape, Vec<u8>) {
    let shape = Shape::new(n, 3, 1, 2).expect("a good shape");
    let mut stripe = noise(shape.size());
    shape.encode(&mut stripe).expect("encoded");
    (shape, stripe)
}

#[test]
fn strips_31_and_32_come_back_and_no_other_is_touched() {
    for (n, strips) in [(31, [30, 31]), (32, [31, 32])] {
        let (shape, sound) = stripe(n);
        for lost in [
            Lost::strip(strips[0]),
            Lost::strip(strips[1]),
            strips.into_iter().collect(),
        ] {
            let mut stripe = sound.clone();
            for strip in lost.strips() {
                stripe[shape.strip_range(strip)].fill(0xFF);
            }
            assert_eq!(shape.rebuild(&mut stripe, lost), Ok(()));
            assert!(stripe == sound, "{shape}, lost: {lost}");
        }
    }
}

#[test]
fn strips_above_n_are_refused_and_no_byte_is_touched() {
    let refused = [
        (30, &[31, 32, 63, 64, usize::MAX][..]),
        (31, &[32, 63, 64, usize::MAX]),
        (32, &[33, 63, 64, usize::MAX]),
    ];
    for (n, strips) in refused {
        let (shape, sound) = stripe(n);
        let mut stripe = sound.clone();
        for &strip in strips {
            for lost in [Lost::strip(strip), Lost::strip(strip) | Lost::strip(0)] {
                let answer = shape.rebuild(&mut stripe, lost);
                assert_eq!(answer.map_err(|x| x.code()), Err(7), "{shape} {strip}");
            }
            let refusal = shape.lost(&[strip]).expect_err("a strip above n");
            let text = format!("strip {strip} is named as lost and the last strip is {n}");
            assert_eq!((refusal.code(), refusal.to_string()), (7, text));
            assert!(stripe == sound);
        }
    }
}
