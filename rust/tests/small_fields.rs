//! The operators of the fields of at most a byte, which are the crate's own, against the library's functions at
//! every operand, and products of the tower by definition.

mod drawn;

use binary_field::*;
use drawn::Draw;

// Every element, in the order of the representations.
fn elements<F: TowerLevel<Repr = u8>>() -> Vec<F> {
    (0..=u8::MAX)
        .take(1 << F::bits())
        .map(F::from_repr)
        .collect()
}

fn agrees_at_every_operand<F: TowerLevel<Repr = u8>>() {
    let all = elements::<F>();
    let mut found = vec![F::ZERO; all.len()];
    for &scalar in &all {
        F::multiply_slice_by(&all, scalar, &mut found).unwrap();
        for (&x, &product) in all.iter().zip(&found) {
            assert_eq!(x * scalar, product, "{x} * {scalar}");
        }
        F::multiply_slices(&all, &vec![scalar; all.len()], &mut found).unwrap();
        assert!(
            all.iter()
                .zip(&found)
                .all(|(&x, &product)| scalar * x == product)
        );
    }
    F::square_slice(&all, &mut found).unwrap();
    assert!(all.iter().zip(&found).all(|(x, &it)| x.square() == it));
    F::square_root_slice(&all, &mut found).unwrap();
    assert!(
        all.iter()
            .zip(&found)
            .all(|(x, &it)| x.try_sqrt() == Some(it))
    );
    F::inverse_slice(&all, &mut found).unwrap();
    assert!(
        all.iter()
            .zip(&found)
            .all(|(x, &it)| x.invert_or_zero() == it)
    );
    assert!(
        F::ZERO.try_inverse().is_none() && all[1..].iter().all(|it| it.try_inverse().is_some())
    );
    for &x in &all[1..] {
        assert!(all.iter().all(|&it| it / x == it * x.inverse()));
    }
}

#[test]
fn operators_agree_with_the_library_at_every_operand() {
    agrees_at_every_operand::<Gf2>();
    agrees_at_every_operand::<BinaryField2>();
    agrees_at_every_operand::<BinaryField4>();
    agrees_at_every_operand::<BinaryField8>();
    agrees_at_every_operand::<Rijndael8b>();
}

macro_rules! by_definition {
    ($($field:ident),*) => {$(
        let mut draw = Draw(83);
        for _ in 0..64 {
            let mut element = || $field::from_le_byte_iter(std::iter::repeat_with(|| draw.next() as u8));
            let (x, y) = (element(), element());
            assert_eq!(x.reference_mul(y), x * y);
        }
    )*};
}

#[test]
fn products_are_those_of_the_definition() {
    by_definition!(
        Gf2,
        BinaryField2,
        BinaryField4,
        BinaryField8,
        BinaryField16,
        BinaryField32,
        BinaryField64,
        BinaryField128
    );
    for x in elements::<BinaryField8>() {
        assert!(elements().into_iter().all(|y| x.reference_mul(y) == x * y));
    }
    let cubic = Poly192::from([u64::MAX, 3, 1 << 63]);
    let log = usize::MAX;
    assert_eq!(cubic.exp_power_of_2(log), cubic.exp_power_of_2(log % 192));
    let packed = Packed([Ghash128::GENERATOR; 2]);
    assert_eq!(
        packed.exp_power_of_2(log).0[1],
        Ghash128::GENERATOR.exp_power_of_2(log % 128)
    );
    assert_eq!(cubic.composed_mul(cubic), cubic.square());
}

#[test]
fn maps_of_bytes_agree_with_the_library_at_every_byte() {
    let mut draw = Draw(9);
    for _ in 0..16 {
        let images = draw.next().to_le_bytes();
        let map = ByteMatrix::from_images(images);
        assert_eq!(
            (map.images(), ByteMatrix::from_quadword(map.to_quadword())),
            (images, map)
        );
        let bytes: Vec<u8> = (0..=u8::MAX).collect();
        let mut mapped = bytes.clone();
        linear_map_of_bytes(&bytes, &images, &mut mapped).unwrap();
        assert!(
            bytes
                .iter()
                .zip(&mapped)
                .all(|(&byte, &image)| map.apply(byte) == image)
        );
        let mut in_place = bytes;
        map.apply_slice(&mut in_place);
        assert_eq!(in_place, mapped);
    }
    for x in elements::<Rijndael8b>() {
        let scaled = |y: &Rijndael8b| x.scaling_matrix().apply(y.to_byte()) == (x * *y).to_byte();
        assert!(elements().iter().all(scaled));
        for (log, power) in x.frobenius_orbit().into_iter().enumerate() {
            assert_eq!(power, x.exp_power_of_2(log));
        }
    }
}

#[test]
fn orders_are_printed_in_decimal() {
    assert_eq!(Gf2::order().to_string(), "2");
    assert_eq!(
        BinaryField32::order().to_string(),
        (1_u64 << 32).to_string()
    );
    assert_eq!(
        BinaryField64::order().to_string(),
        (1_u128 << 64).to_string()
    );
    assert_eq!(
        Ghash128::order().to_string(),
        "340282366920938463463374607431768211456"
    );
    let cubic = "6277101735386680763835789423207666416102355444464034512896";
    assert_eq!(format!("{:>60}", Poly192::order()), format!("{cubic:>60}"));
    assert!(BinaryField16::order() == 1 << 16 && Ghash128::order() != 0);
    assert_eq!(
        (Poly192::order().log2(), Poly192::order().to_u128()),
        (192, None)
    );
}

#[test]
fn what_characteristic_two_has_not_panics() {
    let x = Ghash128::new(5);
    assert_eq!((x.mul_2exp_u64(0), x.mul_2exp_u64(1)), (x, Ghash128::ZERO));
    assert!(std::panic::catch_unwind(|| x.halve()).is_err());
    assert!(std::panic::catch_unwind(|| x.div_2exp_u64(0)).is_err());
}
