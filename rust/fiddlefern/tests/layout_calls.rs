//! Where things stand, against what the calls do: which bytes a write changes, what a scrub finds where a byte is
//! damaged, which bytes a refused rebuild clears, what encode leaves alone.
use fiddlefern::{Finding, Lost, Shape};

#[path = "../benches/calls/noise.rs"]
mod noise;
mod shapes;
use noise::noise;

/// The numbers of the bytes that differ.
fn changed(before: &[u8], after: &[u8]) -> Vec<usize> {
    let differ = |k: &usize| before[*k] != after[*k];
    (0..before.len()).filter(differ).collect()
}

/// A sound stripe with data of its own.
fn sound(shape: Shape) -> Vec<u8> {
    let mut stripe = noise(shape.size());
    shape.encode(&mut stripe).expect("encoded");
    stripe
}

#[test]
fn a_write_changes_what_is_touched() {
    shapes::every(|shape| {
        let stripe = noise(shape.size());
        for row in 0..shape.rows() {
            for strip in 0..shape.data_strips() {
                let old = shape.read(&stripe, row, strip).expect("an element");
                assert!(std::ptr::eq(old, &stripe[shape.element_range(row, strip)]));
                let run: Vec<u8> = old.iter().map(|byte| !byte).collect();
                let mut written = stripe.clone();
                let answer = shape.write(&mut written, row, strip, 0, &run);
                assert_eq!(answer, Ok(()));
                let [x, h, u] = shape.touched(row, strip);
                let diagonal = shape.diagonal(row, strip);
                assert_eq!(u, shape.u_range(diagonal));
                let mut touched: Vec<usize> = x.chain(h).chain(u).collect();
                touched.sort();
                assert_eq!(changed(&stripe, &written), touched, "{shape} {row} {strip}");
            }
        }
    });
}

/// Damages one byte of this range: the scrub must find this, and the rebuild of the strips that it names must mend it.
#[track_caller]
fn found(shape: Shape, stripe: &mut [u8], byte: usize, expected: Finding) {
    let before = stripe.to_vec();
    stripe[byte] ^= 0x40;
    let finding = shape.scrub(stripe).expect("a finding");
    assert_eq!(finding, expected, "{shape}");
    let strips = finding.strips(shape);
    assert_eq!(strips.len(), 1);
    let holds = |strip: usize| shape.strip_range(strip).contains(&byte);
    assert!(strips.strips().all(holds), "{shape}");
    assert_eq!(shape.rebuild(stripe, strips), Ok(()));
    assert!(stripe == before, "{shape}");
}

#[test]
fn a_scrub_finds_the_element_of_a_range() {
    shapes::every(|shape| {
        let mut stripe = sound(shape);
        for row in 0..shape.rows() {
            for strip in 0..shape.data_strips() {
                let byte = shape.element_range(row, strip).start;
                found(shape, &mut stripe, byte, Finding::Element { row, strip });
            }
            let byte = shape.h_range(row).end - 1;
            found(shape, &mut stripe, byte, Finding::H { row });
        }
        for diagonal in 0..shape.data_strips() {
            let byte = shape.u_range(diagonal).end - 1;
            found(shape, &mut stripe, byte, Finding::U { diagonal });
        }
        assert_eq!(shape.scrub(&stripe), Ok(Finding::Sound));
        assert_eq!(Finding::Sound.strips(shape), Lost::NONE);
    });
}

/// Noise without a zero agrees with no sound stripe, so a rebuild of one strip clears it and changes nothing else.
#[test]
fn a_refused_rebuild_clears_a_strip() {
    shapes::every(|shape| {
        let stripe: Vec<u8> = noise(shape.size()).iter().map(|byte| byte | 1).collect();
        for strip in 0..shape.strips() {
            let mut cleared = stripe.clone();
            let answer = shape.rebuild(&mut cleared, Lost::strip(strip));
            assert_eq!(answer.map_err(|x| x.code()), Err(10), "{shape} {strip}");
            assert!(
                cleared[shape.strip_range(strip)]
                    .iter()
                    .all(|byte| *byte == 0)
            );
            let bytes: Vec<usize> = shape.strip_range(strip).collect();
            assert_eq!(changed(&stripe, &cleared), bytes, "{shape} {strip}");
        }
    });
}

#[test]
fn encode_keeps_data_and_sets_the_rest() {
    shapes::every(|shape| {
        let stripe = sound(shape);
        let mut other: Vec<u8> = stripe.iter().map(|byte| !byte).collect();
        for strip in 0..shape.data_strips() {
            let data = shape.data_range(strip);
            other[data.clone()].copy_from_slice(&stripe[data]);
        }
        assert_eq!(
            changed(&stripe, &other).len(),
            shape.size() - shape.capacity()
        );
        assert_eq!(shape.encode(&mut other), Ok(()));
        assert!(other == stripe, "{shape}");
    });
}

/// A picture cut by one copy a strip stands where `locate` says, byte by byte.
#[test]
fn a_picture_is_cut_by_one_copy_a_strip() {
    shapes::every(|shape| {
        let picture = noise(shape.capacity());
        let mut stripe = vec![0; shape.size()];
        let mut rest = &picture[..];
        for strip in 0..shape.data_strips() {
            let (data, behind) = rest.split_at(shape.data_range(strip).len());
            stripe[shape.data_range(strip)].copy_from_slice(data);
            rest = behind;
        }
        assert!(rest.is_empty());
        for (byte, value) in picture.into_iter().enumerate() {
            let (row, strip, offset) = shape.locate(byte);
            let element = shape.read(&stripe, row, strip).expect("an element");
            assert_eq!(element[offset], value, "{shape} {byte}");
        }
    });
}
