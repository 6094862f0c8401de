//! The names of p3-binary-field 0.8.0 and of the traits of p3-field: the code below is one for both but for the lines of `use`, and the
//! numbers that it is compared with are the answers of p3-binary-field.

mod drawn;

use binary_field::poly_basis::{self, LOW_STAGES, LowStageTwiddles};
use binary_field::{Algebra, BasedVectorSpace, ExtensionField, Field, HasFrobenius, HasSubfield};
use binary_field::{
    BinaryField2, BinaryField4, BinaryField8, BinaryField16, BinaryField32, BinaryField64,
};
use binary_field::{BinaryField128, Gf2, Ghash128, Poly64, Poly192, Rijndael8b, TowerLevel};
use binary_field::{PrimeCharacteristicRing, RawDataSerializable};
use drawn::Draw;

// The form for x86-64-v3 is called only where the processor has vectors of 256 bits, and there is one form for ARM.
#[test]
fn the_processor_runs_the_form_that_is_called() {
    #[cfg(target_arch = "x86_64")]
    let forms = if std::is_x86_feature_detected!("avx2") {
        vec!["x86-64-v2", "x86-64-v3"]
    } else {
        vec!["x86-64-v2"]
    };
    #[cfg(not(target_arch = "x86_64"))]
    let forms = vec!["aarch64"];
    assert!(forms.contains(&binary_field::processor()));
}

// A number of two words.
fn wide(draw: &mut Draw) -> u128 {
    u128::from(draw.next()) << 64 | u128::from(draw.next())
}

// A digest of bytes: the 64 bits of FNV-1a.
fn digest(start: u64, bytes: impl IntoIterator<Item = u8>) -> u64 {
    bytes.into_iter().fold(start, |hash, byte| {
        (hash ^ u64::from(byte)).wrapping_mul(0x0000_0100_0000_01b3)
    })
}

const EMPTY: u64 = 0xcbf2_9ce4_8422_2325;

// What the traits of rings and fields give at some elements, as bytes.
fn of_field<F: Field + RawDataSerializable>(elements: &[F]) -> u64 {
    let mut hash = digest(EMPTY, F::bits().to_le_bytes());
    let mut take = |values: &[F]| {
        for &value in values {
            hash = digest(hash, value.into_bytes());
        }
    };
    take(&[F::ZERO, F::ONE, F::TWO, F::NEG_ONE, F::GENERATOR]);
    take(&[
        F::from_u64(6),
        F::from_u8(7),
        F::from_bool(true),
        F::from_bool(false),
    ]);
    take(&[F::from_u128(1 << 100 | 1), F::from_i32(-3)]);
    let mut sum = F::ZERO;
    for pair in elements.chunks_exact(2) {
        let (x, y) = (pair[0], pair[1]);
        take(&[x + y, x - y, x * y, -x, x.square(), x.cube(), x.double()]);
        take(&[
            x.xor(&y),
            x.andn(&y),
            x.bool_check(),
            x.exp_u64(11),
            x.exp_power_of_2(3),
        ]);
        take(&[x.try_sqrt().unwrap(), F::dot_product(&[x, y], &[y, y])]);
        if let Some(inverse) = x.try_inverse() {
            take(&[inverse, x.inverse(), y / x]);
        }
        assert!(!x.is_zero() || x == F::ZERO);
        assert!(x.is_one() == (x == F::ONE));
        let powers: Vec<F> = x.powers().take(5).collect();
        take(&powers);
        let mut changed = x;
        changed += y;
        changed *= y;
        changed -= x;
        sum += changed;
    }
    let products: F = elements.iter().copied().product();
    let sums: F = elements.iter().copied().sum();
    take(&[sum, products, sums, F::interpolation_node(1)]);
    format!("{sum} {sum:?}")
        .bytes()
        .fold(hash, |hash, byte| digest(hash, [byte]))
}

// What a level of the tower gives.
fn of_level<F: TowerLevel + RawDataSerializable>(make: impl Fn(u128) -> F) -> u64 {
    let mut draw = Draw(F::LOG_BITS as u64);
    let elements: Vec<F> = (0..16).map(|_| make(wide(&mut draw))).collect();
    let mut hash = of_field(&elements);
    for &x in &elements {
        assert!(F::from_repr(x.to_repr()) == x);
        hash = digest(hash, x.mul_alpha().into_bytes());
        assert!(F::from_le_byte_iter(x.into_bytes().into_iter()) == x);
    }
    for index in 0..F::bits() {
        hash = digest(hash, F::cantor_basis(index).into_bytes());
    }
    hash
}

// What an element as a vector over a smaller field gives.
fn of_extension<
    F: Field + RawDataSerializable,
    E: ExtensionField<F> + HasFrobenius<F> + Algebra<F> + RawDataSerializable,
>(
    x: E,
    y: F,
) -> u64 {
    let coefficients = x.as_basis_coefficients_slice();
    assert_eq!(coefficients.len(), <E as BasedVectorSpace<F>>::DIMENSION);
    let mut hash = EMPTY;
    for &it in coefficients {
        hash = digest(hash, it.into_bytes());
    }
    assert!(E::from_basis_coefficients_fn(|place| coefficients[place]) == x);
    assert!(E::from_basis_coefficients_iter(coefficients.iter().copied()) == Some(x));
    assert!(E::from(y).is_in_basefield() && E::from(y).as_base() == Some(y));
    assert!(x.as_base().is_none());
    for it in [x * E::from(y), x.frobenius(), x.repeated_frobenius(2)] {
        hash = digest(hash, it.into_bytes());
    }
    hash
}

fn answers() -> Vec<u64> {
    let mut draw = Draw(7);
    let (x, w) = (BinaryField128::from_repr(wide(&mut draw)), draw.next());
    let cubic: Vec<Poly192> = (0..16)
        .map(|_| {
            Poly192::new([
                Poly64::new(draw.next()),
                Poly64::new(draw.next()),
                Poly64::new(draw.next()),
            ])
        })
        .collect();
    let mut found = vec![
        of_level(|it| Gf2::from_repr(it as u8)),
        of_level(|it| BinaryField2::from_repr(it as u8)),
        of_level(|it| BinaryField4::from_repr(it as u8)),
        of_level(|it| BinaryField8::from_le_bytes([it as u8])),
        of_level(|it| BinaryField16::from_le_bytes((it as u16).to_le_bytes())),
        of_level(|it| BinaryField32::from_le_bytes((it as u32).to_le_bytes())),
        of_level(|it| BinaryField64::from_le_bytes((it as u64).to_le_bytes())),
        of_level(|it| BinaryField128::from_le_bytes(it.to_le_bytes())),
        of_level(|it| Rijndael8b::from_repr(it as u8)),
        of_level(|it| Poly64::from_le_bytes((it as u64).to_le_bytes())),
        of_level(|it| Ghash128::from_le_bytes(it.to_le_bytes())),
        of_field(&cubic),
        of_extension(x, BinaryField8::from_repr(w as u8)),
        of_extension(x, BinaryField16::from_repr(w as u16)),
        of_extension(x, BinaryField32::from_repr(w as u32)),
        of_extension(x, BinaryField64::from_repr(w)),
        of_extension(
            BinaryField64::from_repr(w),
            BinaryField8::from_repr(w as u8),
        ),
        of_extension(
            BinaryField16::from_repr(0x1234),
            BinaryField8::from_repr(w as u8),
        ),
        of_extension(cubic[0], Poly64::new(w)),
    ];
    // Changes of basis, and the images of smaller levels.
    let (z, small) = (Ghash128::from(x), BinaryField2::from_repr(2));
    assert!(
        BinaryField128::from(z) == x && BinaryField128::from(small).as_subfield() == Some(small)
    );
    assert!(x.as_subfield().is_none() && !BinaryField128::all_in_subfield(&[x]));
    let mut hash = digest(EMPTY, (z * z).into_bytes());
    hash = digest(hash, (x * small + BinaryField64::from_repr(w)).into_bytes());
    hash = digest(hash, (z + BinaryField32::from_repr(w as u32)).into_bytes());
    hash = digest(
        hash,
        (Poly64::from(BinaryField64::from_repr(w)) * Gf2::ONE).into_bytes(),
    );
    found.push(digest(
        hash,
        Rijndael8b::from(BinaryField8::from_repr(w as u8)).into_bytes(),
    ));
    found.push(of_numbers(&mut draw));
    found
}

// What `poly_basis` gives.
fn of_numbers(draw: &mut Draw) -> u64 {
    let (a, b, mut hash) = (wide(draw), wide(draw), EMPTY);
    let mut values: Vec<u128> = (0..160).map(|_| wide(draw)).collect();
    let mut take = |numbers: &[u128]| {
        for number in numbers {
            hash = digest(hash, number.to_le_bytes());
        }
    };
    let element = poly_basis::to_tower(a);
    take(&[
        poly_basis::mul(a, b),
        poly_basis::square(a),
        poly_basis::from_tower(element),
        element.to_repr(),
    ]);
    poly_basis::mul_slice(&mut values, b);
    take(&values);
    let (low, high) = values.split_at_mut(80);
    poly_basis::butterfly_forward(low, high, a);
    take(low);
    poly_basis::butterfly_inverse(high, low, b);
    take(high);
    let shifts: Vec<u128> = (0..LOW_STAGES).map(|_| wide(draw)).collect();
    let basis: Vec<u128> = (0..9).map(|_| wide(draw)).collect();
    LowStageTwiddles::new(&shifts, &basis).forward(&mut values, 3);
    take(&values);
    poly_basis::to_tower_slice(&mut values);
    take(&values);
    poly_basis::from_tower_slice(&mut values[1..]);
    take(&values);
    hash
}

#[test]
fn a_program_over_p3_binary_field_gives_the_same() {
    let found = answers();
    assert!(found == ANSWERS, "{found:#x?}");
}

// What the code above gives over p3-binary-field 0.8.0.
const ANSWERS: [u64; 21] = [
    0xeb4dd104f3b3cecd,
    0x594b1530003b7332,
    0x808c524c60da92a3,
    0xe240efd6596126d1,
    0x470cf62b29a6db25,
    0x6c3201ac4e9cc578,
    0xd58937f54267bc1e,
    0x224c89a5b1da235b,
    0xf937c2dece85e63d,
    0x63b2bf9e1d2f1cbb,
    0xb637bbea8b9e0682,
    0xb023296533013cfb,
    0xc9ce21cd8492c94f,
    0x749ca75486e0dbd5,
    0xee1a809c81f2e61d,
    0x82257e000a90458c,
    0x543f5fcee64414ac,
    0x9966c5ad8e9139a7,
    0xa76ee2883951b780,
    0x7757745a61ee3666,
    0x63f105afb34007df,
];
