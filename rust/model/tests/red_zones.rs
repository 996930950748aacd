//! What the comparison rests on: a byte changed in a lent buffer or next to it is found, and where.
use model::draw::Draw;
use model::lent::Lent;

#[test]
fn a_change_is_found() {
    let mut draw = Draw::new("red zones");
    for len in [0, 1, 100] {
        let bytes = draw.bytes(len as usize);
        assert_eq!(Lent::new(&bytes, &mut draw).first_difference(&bytes), None);
        for k in -64..len + 64 {
            let mut lent = Lent::new(&bytes, &mut draw);
            // SAFETY: the red zones on both sides have 64 bytes at least.
            let byte = unsafe { &mut *lent.pointer().cast::<u8>().offset(k) };
            let before = *byte;
            *byte ^= 1;
            assert_eq!(
                lent.first_difference(&bytes),
                Some((k, before ^ 1, before)),
                "{len} bytes"
            );
        }
    }
}
