//! Words and bits. 1,000,000 floats and patterns; 1,000,000 numbers of 64 bits at places of a
//! slice, each as two words of four halves, read back as signed ones.

use compare::{drawn, probe::words};

#[test]
fn bits_of_is_to_bits_with_one_nan() {
    let mut inputs = drawn!(1);
    for _ in 0..1_000_000 {
        let x = inputs.float();
        let expected = if x.is_nan() { 0x7fc0_0000 } else { x.to_bits() };
        assert_eq!(words::bits_of(x), expected, "{:08x}", x.to_bits());
    }
}

#[test]
fn f32_of_is_from_bits() {
    let mut inputs = drawn!(2);
    for _ in 0..1_000_000 {
        let expected = inputs.float();
        let x = words::f32_of(expected.to_bits());
        assert!(x.to_bits() == expected.to_bits() || x.is_nan() && expected.is_nan());
    }
}

#[test]
fn numbers_are_little_endian() {
    let mut inputs = drawn!(3);
    for _ in 0..1_000_000 {
        let mut bytes: [u8; 20] = std::array::from_fn(|_| inputs.bits() as u8);
        let mut expected = bytes;
        let at = inputs.below(16) as usize;
        let z = inputs.bits() as i64 >> inputs.below(64);
        words::put_u64(&mut bytes, at, z as u64);
        if let Some(place) = expected.get_mut(at..at + 8) {
            place.copy_from_slice(&z.to_le_bytes());
            assert_eq!(words::i64_at(&bytes, at), z);
        } else {
            assert_eq!(words::i64_at(&bytes, at), 0);
        }
        assert_eq!(bytes, expected);
    }
}
