//! Each operator and each function over slices, against products of bits and against each other; statuses; and the functions that
//! belong to no field.

mod drawn;

use binary_field::*;
use drawn::Draw;

fn laws<F: Field>(make: impl Fn(&mut Draw) -> F) {
    let mut draw = Draw(47);
    let x: Vec<F> = (0..257).map(|_| make(&mut draw)).collect();
    let y: Vec<F> = (0..257).map(|_| make(&mut draw)).collect();
    for (&a, &b) in x.iter().zip(&y) {
        assert_eq!(a * (b + F::ONE) - a, a * b);
        assert_eq!(a + a, F::ZERO);
        assert_eq!(-a, a);
        assert_eq!(a.square(), a * a);
        assert_eq!(a.try_sqrt().unwrap().square(), a);
        assert_eq!(a.exp_u64(5), a * a * a * a * a);
        assert_eq!(
            a.try_inverse().map(|it| it * a),
            (a != F::ZERO).then_some(F::ONE)
        );
        if b != F::ZERO {
            assert_eq!(a / b * b, a);
        }
    }
    assert_eq!(F::GENERATOR.exp_u64(0), F::ONE);
    for length in [0, 1, 2, 17, 257] {
        slices(&x[..length], &y[..length]);
    }
    let mut out = [F::ZERO; 2];
    assert_eq!(
        F::multiply_slices(&x[..2], &y[..3], &mut out),
        Err(Error::Length)
    );
    assert_eq!(
        F::dot_product_of_slices(&x[..2], &y[..3]),
        Err(Error::Length)
    );
    assert_eq!(out, [F::ZERO; 2]);
}

// Each function over slices does at each place what the operator does.
fn slices<F: Field>(x: &[F], y: &[F]) {
    let scalar = y.first().copied().unwrap_or(F::ONE);
    let each = |operation: &dyn Fn(F, F) -> F| -> Vec<F> {
        x.iter().zip(y).map(|(&a, &b)| operation(a, b)).collect()
    };
    let mut out = x.to_vec();
    F::add_slices(x, y, &mut out).unwrap();
    assert_eq!(out, each(&|a, b| a + b));
    F::multiply_slices(x, y, &mut out).unwrap();
    assert_eq!(out, each(&|a, b| a * b));
    F::multiply_slice_by(x, scalar, &mut out).unwrap();
    assert_eq!(out, each(&|a, _| a * scalar));
    out.copy_from_slice(x);
    F::add_scaled_slice(&mut out, scalar, y).unwrap();
    assert_eq!(out, each(&|a, b| a + scalar * b));
    F::square_slice(x, &mut out).unwrap();
    assert_eq!(out, each(&|a, _| a.square()));
    F::square_root_slice(x, &mut out).unwrap();
    assert_eq!(out, each(&|a, _| a.try_sqrt().unwrap()));
    let inverses = each(&|a, _| a.invert_or_zero());
    F::inverse_slice(x, &mut out).unwrap();
    assert_eq!(out, inverses);
    out.fill(F::ZERO);
    F::batch_inverse_slice(x, &mut out).unwrap();
    assert_eq!(out, inverses);
    F::power_slice(x, 11, &mut out).unwrap();
    assert_eq!(out, each(&|a, _| a.exp_u64(11)));
    assert_eq!(F::product_of_slice(x), x.iter().copied().product());
    assert_eq!(
        F::dot_product_of_slices(x, y).unwrap(),
        each(&|a, b| a * b).into_iter().sum()
    );
    in_place(x, y, scalar);
    F::evaluate(&[F::ONE, scalar], x, &mut out).unwrap();
    assert_eq!(out, each(&|a, _| F::ONE + scalar * a));
}

// Each function in place leaves what the operator gives.
fn in_place<F: Field>(x: &[F], y: &[F], scalar: F) {
    let leaves = |change: &dyn Fn(&mut [F]), operation: &dyn Fn(F, F) -> F| {
        let mut values = x.to_vec();
        change(&mut values);
        for (place, &value) in values.iter().enumerate() {
            assert_eq!(value, operation(x[place], y[place]));
        }
    };
    leaves(&|it| F::add_assign_slice(it, y).unwrap(), &|a, b| a + b);
    leaves(&|it| F::multiply_assign_slice(it, y).unwrap(), &|a, b| {
        a * b
    });
    leaves(&|it| F::scale_slice(it, scalar), &|a, _| a * scalar);
    leaves(&F::square_assign_slice, &|a, _| a.square());
    leaves(&F::invert_assign_slice, &|a, _| a.invert_or_zero());
    leaves(&F::square_root_assign_slice, &|a, _| a.try_sqrt().unwrap());
    leaves(&|it| F::power_assign_slice(it, 7), &|a, _| a.exp_u64(7));
    let mut more = [F::ONE; 300];
    assert_eq!(F::multiply_assign_slice(&mut more, y), Err(Error::Length));
    assert_eq!(more, [F::ONE; 300]);
}

#[test]
fn every_field_has_its_operators_and_its_slices() {
    laws(|draw| Gf2::new(draw.next() as u8 & 1).unwrap());
    laws(|draw| BinaryField2::new(draw.next() as u8 & 3).unwrap());
    laws(|draw| BinaryField4::new(draw.next() as u8 & 15).unwrap());
    laws(|draw| BinaryField8::new(draw.next() as u8));
    laws(|draw| BinaryField16::new(draw.next() as u16));
    laws(|draw| BinaryField32::new(draw.next() as u32));
    laws(|draw| BinaryField64::new(draw.next()));
    laws(|draw| BinaryField128::new(u128::from(draw.next()) << 64 | u128::from(draw.next())));
    laws(|draw| Rijndael8b::new(draw.next() as u8));
    laws(|draw| Poly64::new(draw.next()));
    laws(|draw| Ghash128::new(u128::from(draw.next()) << 64 | u128::from(draw.next())));
    laws(|draw| Poly192::from([draw.next(), draw.next(), draw.next()]));
}

#[test]
fn a_product_is_the_sum_of_the_shifted_operands() {
    let mut draw = Draw(48);
    for _ in 0..100 {
        let (a, b) = (draw.next(), draw.next());
        let (mut power, mut product) = (u128::from(a), 0u128);
        for bit in 0..64 {
            product ^= power * u128::from(b >> bit & 1);
            power <<= 1;
        }
        assert_eq!(
            (Ghash128::new(a.into()) * Ghash128::new(b.into())).to_bits(),
            product
        );
    }
    assert_eq!(
        BinaryField8::new(0x10) * BinaryField8::new(0x10),
        BinaryField8::new(0x41)
    );
    assert_eq!(
        Rijndael8b::new(0x57) * Rijndael8b::new(0x83),
        Rijndael8b::new(0xc1)
    );
    assert_eq!(
        Poly192::from([0, 1, 0]) * Poly192::from([0, 0, 1]),
        Poly192::from([1, 1, 0])
    );
}

#[test]
fn words_outside_a_field_are_refused() {
    assert_eq!(
        (Gf2::new(2), BinaryField2::new(4), BinaryField4::new(16)),
        (None, None, None)
    );
    assert_eq!(BinaryField4::try_from(16), Err(ParseError));
    assert_eq!(BinaryField4::try_from(15).map(u8::from), Ok(15));
    assert_eq!(Error::Memory.to_string(), "out of memory");
    assert_eq!(Ghash128::from(0x87_u128), Ghash128::new(0x87));
    assert_eq!(u128::from(BinaryField128::from(1_u128 << 127)), 1 << 127);
}

#[test]
fn texts_are_read_back() {
    let cubic = Poly192::from([1, 2, 3]);
    assert_eq!(
        format!("{:?} {}", Ghash128::new(0x87), Ghash128::new(0x87)),
        "135 135"
    );
    assert_eq!(format!("{cubic} {cubic:?}"), "1 + 2*y + 3*y^2 [1, 2, 3]");
    assert_eq!(
        format!(
            "{:x} {:#x} {:08x}",
            BinaryField8::new(0xa5),
            Poly64::new(16),
            BinaryField16::new(10)
        ),
        "a5 0x10 0000000a"
    );
    let wide = Poly192::from([16, 0xab, 3]);
    assert_eq!(format!("{wide:x}"), "10 + ab*y + 3*y^2");
    assert_eq!(format!("{wide:#x}"), "0x10 + 0xab*y + 0x3*y^2");
    assert_eq!("135".parse(), Ok(Ghash128::new(0x87)));
    assert_eq!("0x87".parse(), Ok(Ghash128::new(0x87)));
    assert_eq!("1 + 2*y + 3*y^2".parse(), Ok(cubic));
    assert_eq!(format!("{wide:#x}").parse(), Ok(wide));
    for wrong in ["", "0x", "-1", "+1", "0x+1", "16", "one", "1 ", "0x10"] {
        assert_eq!(wrong.parse::<BinaryField4>(), Err(ParseError), "{wrong}");
    }
    for wrong in [
        "",
        "1",
        "1 + 2*y",
        "1 + 2*y + 3*y^2 + 4",
        "0x1",
        "1 + 2 + 3",
    ] {
        assert_eq!(wrong.parse::<Poly192>(), Err(ParseError), "{wrong}");
    }
    assert_eq!(ParseError.to_string(), "not an element of the field");
}

// The references are what is tried.
#[allow(clippy::op_ref)]
#[test]
fn operators_take_references() {
    let (mut a, b) = (Ghash128::new(1 << 127), Ghash128::new(3));
    assert_eq!((&a * &b, &a * b, a * &b), (a * b, a * b, a * b));
    assert_eq!((&a + &b, &a - b, a / &b), (a + b, a + b, a / b));
    let (sum, product): (Ghash128, Ghash128) = ([a, b].iter().sum(), [a, b].iter().product());
    assert_eq!((sum, product), (a + b, a * b));
    a += &b;
    a *= &b;
    a /= &b;
    a -= &b;
    assert_eq!(a, Ghash128::new(1 << 127));
}

#[test]
fn packings_are_elements_at_each_place() {
    let mut draw = Draw(51);
    let elements: [Rijndael8b; 37] = core::array::from_fn(|_| Rijndael8b::new(draw.next() as u8));
    let (packed, rest) = PackedRijndael8b::<16>::pack_slice_with_suffix(&elements);
    assert_eq!((packed.len(), rest), (2, &elements[32..]));
    assert_eq!(PackedRijndael8b::unpack_slice(packed), &elements[..32]);
    let (x, y, scalar) = (packed[0], packed[1], elements[36]);
    let each = |operation: &dyn Fn(Rijndael8b, Rijndael8b) -> Rijndael8b| {
        PackedRijndael8b::<16>::from_fn(|place| operation(x.as_slice()[place], y.as_slice()[place]))
    };
    assert_eq!((x + y, x * y), (each(&|a, b| a + b), each(&|a, b| a * b)));
    assert_eq!(
        (x * scalar, x + scalar),
        (each(&|a, _| a * scalar), each(&|a, _| a + scalar))
    );
    assert_eq!(
        (x.square(), x.exp_u64(5)),
        (each(&|a, _| a.square()), each(&|a, _| a.exp_u64(5)))
    );
    assert_eq!(x.invert_or_zero(), each(&|a, _| a.invert_or_zero()));
    assert_eq!(PackedRijndael8b::<16>::from_slice(&elements[..16]), &x);
    assert_eq!(PackedGhash128::<4>::WIDTH, 4);
    let mut changed = y;
    PackedRijndael8b::<16>::from_slice_mut(changed.as_slice_mut()).0[0] = scalar;
    assert_eq!(changed.0[0], scalar);
    assert_eq!([x, y].into_iter().sum::<PackedRijndael8b<16>>(), x + y);
    assert_eq!([x, y].into_iter().product::<PackedRijndael8b<16>>(), x * y);
    assert_eq!(
        PackedRijndael8b::<16>::ONE * x - x,
        PackedRijndael8b::<16>::ZERO
    );
}

#[test]
fn what_cannot_be_panics() {
    let panics = |call: fn()| assert!(std::panic::catch_unwind(call).is_err());
    panics(|| {
        Ghash128::ZERO.inverse();
    });
    panics(|| {
        let _ = Rijndael8b::ONE / Rijndael8b::ZERO;
    });
    panics(|| {
        let _ = PackedRijndael8b::<2>::ONE / Packed([Rijndael8b::ONE, Rijndael8b::ZERO]);
    });
    panics(|| {
        BinaryField4::interpolation_node(16);
    });
    panics(|| {
        BinaryField8::cantor_basis(8);
    });
    panics(|| poly_basis::butterfly_forward(&mut [1], &mut [1, 2], 3));
    panics(|| {
        poly_basis::LowStageTwiddles::new(&[1; 4], &[1; 2]);
    });
    panics(|| poly_basis::LowStageTwiddles::new(&[1; 4], &[1; 3]).forward(&mut [0; 15], 0));
    panics(|| poly_basis::LowStageTwiddles::new(&[1; 4], &[1; 3]).forward(&mut [0; 16], 1));
    panics(|| {
        BinaryField16::from_le_byte_iter([1].into_iter());
    });
}

#[test]
fn changes_of_basis_keep_products() {
    let mut draw = Draw(49);
    for _ in 0..50 {
        let wide = u128::from(draw.next()) << 64 | u128::from(draw.next());
        let (a, b) = (
            BinaryField128::new(wide),
            BinaryField128::new(u128::from(draw.next())),
        );
        assert_eq!(Ghash128::from(a * b), Ghash128::from(a) * Ghash128::from(b));
        assert_eq!(BinaryField128::from(Ghash128::from(a)), a);
        let (c, d) = (
            BinaryField64::new(draw.next()),
            BinaryField64::new(draw.next()),
        );
        assert_eq!(Poly64::from(c * d), Poly64::from(c) * Poly64::from(d));
        let (e, f) = (
            BinaryField8::new(draw.next() as u8),
            BinaryField8::new(draw.next() as u8),
        );
        assert_eq!(
            Rijndael8b::from(e * f),
            Rijndael8b::from(e) * Rijndael8b::from(f)
        );
        let mut images = [Ghash128::ZERO; 2];
        Ghash128::from_slice(&[a, b], &mut images).unwrap();
        assert_eq!(images, [a.into(), b.into()]);
    }
}

// A transform, and back.
fn is_transformed<F: Transformed + std::fmt::Debug, const N: usize>(
    coefficients: [F; N],
    shift: F,
) {
    let mut values = coefficients;
    transform(&mut values, shift).unwrap();
    assert_ne!(values, coefficients);
    inverse_transform(&mut values, shift).unwrap();
    assert_eq!(values, coefficients);
    assert_eq!(transform(&mut values[..3], shift), Err(Error::Length));
}

#[test]
fn transforms_over_levels() {
    let mut draw = Draw(51);
    is_transformed(
        [0; 16].map(|_| BinaryField16::new(draw.next() as u16)),
        BinaryField16::new(draw.next() as u16),
    );
    is_transformed(
        [0; 16].map(|_| BinaryField32::new(draw.next() as u32)),
        BinaryField32::new(draw.next() as u32),
    );
    is_transformed(
        [0; 16].map(|_| BinaryField64::new(draw.next())),
        BinaryField64::new(draw.next()),
    );
    is_transformed(
        [0; 16]
            .map(|_| BinaryField128::new(u128::from(draw.next()) << 64 | u128::from(draw.next()))),
        BinaryField128::new(u128::from(draw.next())),
    );
}

#[test]
fn transforms_and_linear_maps() {
    let mut draw = Draw(50);
    let mut element = || Ghash128::new(u128::from(draw.next()) << 64 | u128::from(draw.next()));
    let (shift, coefficients) = (element(), [0; 64].map(|_| element()));
    is_transformed(coefficients, shift);
    let (mut low, mut high) = ([element(); 3], [element(); 3]);
    let (low_before, high_before) = (low, high);
    butterfly_forward(&mut low, &mut high, shift).unwrap();
    assert_eq!(
        (low[0], high[0]),
        (
            low_before[0] + shift * high_before[0],
            high_before[0] + low[0]
        )
    );
    butterfly_inverse(&mut low, &mut high, shift).unwrap();
    assert_eq!((low, high), (low_before, high_before));
    // The four stages of two values and fourteen zeros: the value of c0 + c1 s_0, whose factor is shift 0 and the basis.
    let mut run = [Ghash128::ZERO; 16];
    (run[0], run[1]) = (coefficients[0], coefficients[1]);
    let (shifts, basis) = ([0; 4].map(|_| element()), [0; 3].map(|_| element()));
    low_stages(&mut run, &shifts, &basis, 0).unwrap();
    assert_eq!(
        run[2],
        coefficients[0] + coefficients[1] * (shifts[0] + basis[0])
    );
    assert_eq!(low_stages(&mut run, &shifts, &basis, 1), Err(Error::Length));
    let images = core::array::from_fn::<_, 128, _>(|bit| Ghash128::new(1 << bit));
    let mut mapped = [Ghash128::ZERO; 64];
    linear_map(&coefficients, &images, &mut mapped).unwrap();
    assert_eq!(mapped, coefficients);
    let mut bytes = [0; 2];
    linear_map_of_bytes(&[3, 128], &[1, 3, 0, 0, 0, 0, 0, 9], &mut bytes).unwrap();
    assert_eq!(bytes, [2, 9]);
}

// A message of two blocks and a part of one, hashed in pieces that end anywhere.
fn tags_in_pieces(key: &[u8; 16], text: &[u8; 16]) {
    let message = [&text[..], &key[..], &text[..5]].concat();
    let (mut of_ghash, mut of_polyval) = (Ghash::new(key), Polyval::new(key));
    let empty = of_ghash.clone();
    for piece in message.chunks(7) {
        of_ghash.update(piece);
        of_polyval.update(piece);
    }
    assert_eq!(of_polyval.finalize(), polyval(key, &message));
    let mut both = of_ghash.clone();
    assert_eq!(of_ghash.finalize_reset(), ghash(key, &message));
    of_ghash.update(text);
    assert_eq!(of_ghash.finalize(), ghash(key, text));
    both.pad();
    both.update(text);
    assert_eq!(
        both.clone().finalize_gcm(message.len(), 1 << 61),
        Err(Error::Length)
    );
    assert_eq!(
        both.finalize_gcm(message.len(), text.len()),
        Ok(gcm_ghash(key, &message, text))
    );
    assert_eq!(format!("{empty:?}"), "Ghash { .. }");
    assert_eq!(empty.finalize(), [0; 16]);
}

// Missing shards that are restored by tables that were made before.
fn restored_by_tables(code: ReedSolomon, whole: &[u8; 12]) {
    let (mut tables, mut shards) = ([0; 256], *whole);
    let present = [false, true, true, false];
    assert!(
        code.prepare_reconstruct(&present, &mut tables[..255])
            .is_err()
    );
    assert!(
        code.prepare_reconstruct(&present[..3], &mut tables)
            .is_err()
    );
    assert_eq!(
        code.prepare_reconstruct(&[false, false, false, true], &mut tables)
            .err(),
        Some(Error::TooFewShards)
    );
    let prepared = code.prepare_reconstruct(&present, &mut tables).unwrap();
    shards[..3].fill(0);
    shards[9..].fill(0);
    prepared.reconstruct_data(&mut shards).unwrap();
    assert_eq!((&shards[..9], &shards[9..]), (&whole[..9], &[0; 3][..]));
    shards[..3].fill(0);
    prepared.reconstruct(&mut shards).unwrap();
    assert_eq!(&shards, whole);
    assert_eq!(prepared.reconstruct(&mut shards[..5]), Err(Error::Length));
    assert_eq!(prepared.code(), code);
}

// Shards that stand apart, restored where they stand.
fn shards_apart(code: ReedSolomon, whole: &[u8; 12]) {
    let mut shards: Vec<Vec<u8>> = whole.chunks(3).map(<[u8]>::to_vec).collect();
    let all = shards.clone();
    let present = [false, true, true, false];
    shards[0].fill(7);
    shards[3].fill(7);
    code.reconstruct_data_shards(&mut shards, &present).unwrap();
    assert_eq!((&shards[0], &shards[3]), (&all[0], &vec![7; 3]));
    shards[0].fill(7);
    code.reconstruct_shards(&mut shards, &present).unwrap();
    assert_eq!(shards, all);
    shards[0].fill(7);
    assert_eq!(
        code.reconstruct_shards(&mut shards, &[false, false, false, true]),
        Err(Error::TooFewShards)
    );
    assert_eq!(shards[0], [7; 3]);
    assert_eq!(
        code.reconstruct_shards(&mut shards[..3], &present[..3]),
        Err(Error::Length)
    );
    shards[1].pop();
    assert_eq!(
        code.reconstruct_shards(&mut shards, &present),
        Err(Error::Length)
    );
}

#[test]
fn lines_of_text() {
    let rows = [
        ("t8 mul 10 10", "41"),
        ("r8 mul 57 83", "c1"),
        ("t8 inv 00", "none"),
        ("", "error 1"),
    ];
    for (line, wanted) in rows {
        assert_eq!(answer(line).as_str(), wanted);
    }
    assert_eq!(answer([0xff]).to_string(), "error 6");
}

#[test]
fn tags_and_codes() {
    let key: [u8; 16] = core::array::from_fn(|i| {
        (0x66e9_4bd4_ef8a_2c3b_884c_fa59_ca34_2b2e_u128 >> (120 - 8 * i)) as u8
    });
    let text = 0x0388_dace_60b6_a392_f328_c2b9_71b2_fe78_u128.to_be_bytes();
    assert_eq!(
        gcm_ghash(&key, &[], &text),
        0xf38c_bb1a_d692_23dc_c345_7ae5_b6b0_f885_u128.to_be_bytes()
    );
    assert_eq!(ghash(&key, &[]), [0; 16]);
    assert_ne!(ghash(&key, &text), polyval(&key, &text));
    tags_in_pieces(&key, &text);
    assert!(
        tags_are_equal(&key, &key)
            && !tags_are_equal(&key, &text)
            && !tags_are_equal(&key, &key[1..])
    );
    let code = ReedSolomon::new(2, 2).unwrap();
    let mut shards = *b"abcdef\0\0\0\0\0\0";
    code.encode(&mut shards).unwrap();
    assert!(code.verify(&shards).unwrap());
    let whole = shards;
    shards[..6].fill(0);
    assert!(!code.verify(&shards).unwrap());
    code.reconstruct(&mut shards, &[false, false, true, true])
        .unwrap();
    assert_eq!(shards, whole);
    shards[..3].fill(0);
    code.reconstruct_data(&mut shards, &[false, true, true, true])
        .unwrap();
    assert_eq!(shards, whole);
    assert_eq!(
        code.reconstruct(&mut shards, &[false, false, false, true]),
        Err(Error::TooFewShards)
    );
    assert_eq!(code.encode(&mut shards[..5]), Err(Error::Length));
    shards_apart(code, &whole);
    let mut tables = [0; 256];
    assert_eq!(code.tables_length(), 256);
    assert!(code.prepare(&mut tables[..255]).is_err());
    let prepared = code.prepare(&mut tables).unwrap();
    shards[6..].fill(0);
    assert_eq!(prepared.verify(&shards), Ok(false));
    prepared.encode(&mut shards).unwrap();
    assert_eq!((shards, prepared.verify(&whole)), (whole, Ok(true)));
    assert_eq!(prepared.encode(&mut shards[..5]), Err(Error::Length));
    assert_eq!(prepared.code(), code);
    restored_by_tables(code, &whole);
    let (mut first, mut second) = ([9; 3], [9; 3]);
    prepared
        .encode_shards(
            &[&whole[..3], &whole[3..6]],
            &mut [&mut first[..], &mut second],
        )
        .unwrap();
    assert_eq!((&first[..], &second[..]), (&whole[6..9], &whole[9..]));
    prepared.add_shard(1, 0, &whole[3..6], &mut first).unwrap();
    prepared.add_shard(0, 0, &whole[..3], &mut first).unwrap();
    assert_eq!(first, [0; 3]);
    assert!(prepared.add_shard(2, 0, &whole[..3], &mut first).is_err());
    assert!(
        prepared
            .encode_shards(
                &[&whole[..3], &whole[3..5]],
                &mut [&mut first[..], &mut second]
            )
            .is_err()
    );
    assert_eq!(ReedSolomon::new(200, 57), Err(Error::Code));
}

#[test]
fn transform_codes_restore() {
    let code = TransformCode::new(3, 2).unwrap();
    let mut space = vec![7; code.space_length()];
    assert_eq!(space.len(), 320);
    let data = [1, 0x8000, 0x1234, 0xffff, 0, 5];
    let (mut shards, mut parity) = (data, [0; 4]);
    code.encode(&data, &mut parity, &mut space).unwrap();
    // By the definition of tests/definitions.py.
    assert_eq!(parity, [0x8c45, 0xedd5, 0xbd6a, 0x775]);
    assert_eq!(code.verify(&data, &parity, &mut space), Ok(true));
    let whole = parity;
    shards[2..4].fill(9);
    parity[..2].fill(9);
    assert_eq!(code.verify(&shards, &parity, &mut space), Ok(false));
    code.reconstruct(
        &mut shards,
        &mut parity,
        &[true, false, true, false, true],
        &mut space,
    )
    .unwrap();
    assert_eq!((shards, parity), (data, whole));
    let few = [true, false, false, false, true];
    assert_eq!(
        code.reconstruct(&mut shards, &mut parity, &few, &mut space),
        Err(Error::TooFewShards)
    );
    assert_eq!(
        code.encode(&data[..5], &mut parity, &mut space),
        Err(Error::Length)
    );
    assert_eq!(
        code.encode(&data, &mut parity, &mut space[..39]),
        Err(Error::Length)
    );
    assert!(TransformCode::new(16384, 16384).is_ok());
    for (data, parity) in [(0, 1), (1, 0), (32769, 1), (1, 65536), (usize::MAX, 1)] {
        assert_eq!(TransformCode::new(data, parity), Err(Error::Code));
    }
}

// 0 1 and its inverse; a matrix of rank 1; equations with one solution, with many and with none.
// 1 g
fn matrices_of<F: Matrices>() {
    let (zero, one, g) = (F::ZERO, F::ONE, F::GENERATOR);
    let (matrix, wanted) = ([zero, one, one, g], [g, one, one, zero]);
    let (mut space, mut places) = ([g; 8], [7; 2]);
    let mut inverse = [zero; 4];
    F::matrix_inverse(&matrix, 2, &mut inverse, &mut space, &mut places).unwrap();
    assert_eq!(inverse, wanted);
    let mut product = [g; 4];
    F::matrix_multiply(&matrix, &inverse, &mut product, 2, 2, 2).unwrap();
    assert_eq!(product, [one, zero, zero, one]);
    assert_eq!(F::matrix_determinant(&matrix, 2, &mut space[..4]), Ok(one));
    let (mut low, form) = ([g, g * g, one, g], [one, g, zero, zero]);
    assert_eq!(
        F::matrix_inverse(&low, 2, &mut inverse, &mut space, &mut places),
        Err(Error::Unsolvable)
    );
    assert_eq!(inverse, wanted);
    assert_eq!(F::matrix_determinant(&low, 2, &mut space[..4]), Ok(zero));
    assert_eq!(
        F::matrix_rank(&low, 2, 2, &mut space[..4], &mut places),
        Ok(1)
    );
    let mut solution = [one; 2];
    for (right, found) in [
        ([g, one], Ok([one, zero])),
        ([g, zero], Err(Error::Unsolvable)),
    ] {
        let result = F::matrix_solve(
            &low,
            2,
            2,
            &right,
            &mut solution,
            &mut space[..6],
            &mut places,
        );
        assert_eq!(result.map(|()| solution), found);
    }
    assert_eq!(solution, [one, zero]);
    assert_eq!(F::matrix_row_reduce(&mut low, 2, 2, &mut places), Ok(1));
    assert_eq!((low, places[0]), (form, 0));
    assert_eq!(
        F::matrix_multiply(&matrix, &low[..3], &mut product, 2, 2, 2),
        Err(Error::Length)
    );
    assert_eq!(F::matrix_determinant(&[], 0, &mut []), Ok(one));
}

#[test]
fn matrices_have_inverses_and_ranks() {
    matrices_of::<Gf2>();
    matrices_of::<BinaryField2>();
    matrices_of::<BinaryField4>();
    matrices_of::<BinaryField8>();
    matrices_of::<BinaryField16>();
    matrices_of::<BinaryField32>();
    matrices_of::<BinaryField64>();
    matrices_of::<BinaryField128>();
    matrices_of::<Rijndael8b>();
    matrices_of::<Poly64>();
    matrices_of::<Ghash128>();
    matrices_of::<Poly192>();
}
